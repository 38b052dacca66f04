//! Programs with a mistake each have to be caught, so that the tests are seen to fail.

use std::fs;
use std::path::Path;

use crate::bench::or_complain;
use crate::parts::{Hunt, Outcome, Part, Stage};
use crate::story::Story;

/// Every program NAME in the folder is caught by the part that NAME.part names, with a complaint
/// that has the text of NAME.says, among the cases with the text of NAME.among.
pub fn all_caught(stage: &Stage, folder: &Path) -> Outcome {
    let mut passed = 0;
    let mut complaints = Vec::new();
    let names = names(folder).unwrap_or_else(|why| {
        complaints.push(why);
        Vec::new()
    });
    for name in &names {
        match caught(stage, folder, name) {
            Ok(how) => {
                println!("broken host {name}: {how}");
                passed += 1;
            }
            Err(why) => complaints.push(format!("broken host {name} isn't caught: {why}")),
        }
    }
    if names.is_empty() {
        complaints.push("there is no broken host to catch".into());
    }
    Outcome {
        passed,
        complaints,
        words: format!("broken hosts: {passed} of {} caught", names.len()),
        ..Outcome::default()
    }
}

fn names(folder: &Path) -> Result<Vec<String>, String> {
    let mut names = Vec::new();
    for entry in or_complain(fs::read_dir(folder))? {
        let name = or_complain(entry)?
            .file_name()
            .to_string_lossy()
            .into_owned();
        names.extend(name.strip_suffix(".part").map(String::from));
    }
    names.sort();
    Ok(names)
}

/// The complaint.
fn caught(stage: &Stage, folder: &Path, name: &str) -> Result<String, String> {
    let field =
        |field: &str| or_complain(fs::read_to_string(folder.join(format!("{name}.{field}"))));
    let part = field("part")?;
    let hunt = Hunt {
        part: Part::named(part.trim()).ok_or(format!("there is no part {part}"))?,
        says: field("says")?.trim().into(),
        among: field("among")?.trim().into(),
    };
    let stage = stage.with(Some(folder.join(name)), Story::fixed())?;
    let complaints = stage.hunt(&hunt);
    match complaints.iter().find(|found| found.contains(&hunt.says)) {
        Some(complaint) => Ok(complaint.clone()),
        None => Err(format!(
            "nothing says {:?}; {}",
            hunt.says,
            first(&complaints)
        )),
    }
}

fn first(complaints: &[String]) -> String {
    match complaints {
        [] => "there is no complaint".into(),
        [first, ..] => format!("the first of {} complaints is {first:?}", complaints.len()),
    }
}
