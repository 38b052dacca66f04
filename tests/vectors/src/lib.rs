//! Books and other inputs that show each condition of form and of audit, the ends of each
//! range and what runs of calls leave.

mod audit_edits;
mod form_edits;
mod form_slots;
mod layout_edits;
mod retired;
mod runs;
pub mod seeds;
mod sized;
mod vector;

pub use vector::{edited, Edit, Vector};

/// Changes of the book after case d.
pub fn edits() -> Vec<Edit> {
    let mut edits = layout_edits::edits();
    edits.extend(form_edits::edits());
    edits.extend(form_slots::edits());
    edits.extend(retired::edits());
    edits.extend(audit_edits::edits().into_iter().map(|(edit, _)| edit));
    edits
}

pub fn all() -> Vec<Vector> {
    let mut vectors: Vec<Vector> = edits().iter().map(Edit::vector).collect();
    vectors.extend(layout_edits::vectors());
    vectors.extend(audit_edits::vectors());
    vectors.extend(sized::vectors());
    vectors.extend(runs::vectors());
    vectors
}

#[cfg(test)]
mod tests {
    use super::all;
    use std::collections::BTreeSet;

    #[test]
    fn every_page_is_as_meant() {
        for vector in all() {
            vector.page();
        }
    }

    #[test]
    fn names_differ() {
        let vectors = all();
        let names: BTreeSet<&str> = vectors.iter().map(|vector| &vector.name[..]).collect();
        assert_eq!(names.len(), vectors.len());
    }
}
