//! Puts all mutants of a file into it at once, behind a switch that is set when the program runs:
//! one build then serves for all of them.

use std::ops::Range;

use crate::mutant::Mutant;

/// The module that the mutated copy of the second implementation gets.
pub const MODULE: &str = r#"
/// The mutant that ASPEN_MUTANT names, counted from 1; 0 if none.
pub fn chosen() -> usize {
    static CHOSEN: std::sync::OnceLock<usize> = std::sync::OnceLock::new();
    *CHOSEN.get_or_init(|| {
        let number = std::env::var("ASPEN_MUTANT");
        number.map_or(0, |number| number.parse().expect("a number"))
    })
}
"#;

/// A mutant with its number.
type Numbered<'a> = (usize, &'a Mutant);

/// The text with its mutants. `path` is that of the module in this file.
pub fn switched(text: &str, path: &str, mutants: &[Numbered]) -> Result<String, String> {
    let mut places: Vec<(Range<usize>, Vec<Numbered>)> = Vec::new();
    for &(number, mutant) in mutants {
        let range = only_place(text, mutant)?;
        match places.iter_mut().find(|(place, _)| *place == range) {
            Some((_, there)) => there.push((number, mutant)),
            None => places.push((range, vec![(number, mutant)])),
        }
    }
    places.sort_by_key(|(place, _)| place.start);
    let mut switched = String::new();
    let mut end = 0;
    for (place, there) in places {
        if place.start < end {
            return Err(format!("its text overlaps another's: {}", there[0].1.name));
        }
        switched.push_str(&text[end..place.start]);
        switched.push_str(&choice(path, &text[place.clone()], &there));
        end = place.end;
    }
    switched.push_str(&text[end..]);
    Ok(switched)
}

fn only_place(text: &str, mutant: &Mutant) -> Result<Range<usize>, String> {
    let places: Vec<usize> = text.match_indices(&mutant.old).map(|(at, _)| at).collect();
    match places[..] {
        [start] => Ok(start..start + mutant.old.len()),
        _ => Err(format!(
            "its text occurs {} times: {}",
            places.len(),
            mutant.name
        )),
    }
}

/// A statement or an expression that takes the text of the mutant that was chosen.
fn choice(path: &str, old: &str, there: &[Numbered]) -> String {
    let arms = there.iter();
    let arms: String = arms
        .map(|(number, mutant)| format!("{number} => {{ {} }} ", mutant.new))
        .collect();
    let choice = format!("match {path}::chosen() {{ {arms}_ => {{ {old} }} }}");
    match old.ends_with([';', '}']) {
        true => choice,
        false => format!("({choice})"),
    }
}

#[cfg(test)]
mod tests {
    use super::{switched, Mutant};

    fn mutant(old: &str, new: &str) -> Mutant {
        Mutant {
            name: "m".into(),
            file: "f".into(),
            old: old.into(),
            new: new.into(),
        }
    }

    #[test]
    fn mutants_of_one_place_share_a_switch() {
        let (one, other) = (mutant("a < b", "a <= b"), mutant("a < b", "false"));
        let text = switched("if a < b {", "m", &[(3, &one), (7, &other)]);
        let expected = "if (match m::chosen() { 3 => { a <= b } 7 => { false } _ => { a < b } }) {";
        assert_eq!(text, Ok(expected.into()));
    }

    #[test]
    fn a_text_occurs_once_and_apart_from_others() {
        assert!(switched("aa", "m", &[(1, &mutant("a", "b"))]).is_err());
        assert!(switched("b", "m", &[(1, &mutant("a", "b"))]).is_err());
        let overlapping = [(1, &mutant("ab", "x")), (2, &mutant("bc", "x"))];
        assert!(switched("abc", "m", &overlapping).is_err());
    }
}
