//! Mutants as `mutants.txt` has them: a paragraph each.

/// One way to break the second implementation.
#[derive(Clone, Debug, PartialEq, Eq)]
pub struct Mutant {
    pub name: String,
    /// The file, from the workspace's folder.
    pub file: String,
    /// The text there, and what stands in its place; lines are joined as they are.
    pub old: String,
    pub new: String,
}

/// Reads paragraphs of `name:`, `file:`, `old:` and `new:` lines; a line that starts with blanks
/// goes on with the text before it. Lines that start with # are comments.
pub fn parse(text: &str) -> Result<Vec<Mutant>, String> {
    let lines: Vec<&str> = text.lines().filter(|line| !line.starts_with('#')).collect();
    let paragraphs = lines.split(|line| line.is_empty());
    let filled = paragraphs.filter(|paragraph| !paragraph.is_empty());
    filled.map(paragraph).collect()
}

fn paragraph(lines: &[&str]) -> Result<Mutant, String> {
    let mut fields: Vec<(&str, String)> = Vec::new();
    for line in lines {
        let last = fields.last_mut().filter(|_| line.starts_with(' '));
        if let Some((_, text)) = last {
            text.push('\n');
            text.push_str(line);
            continue;
        }
        let (key, text) = line
            .split_once(": ")
            .ok_or_else(|| format!("no field: {line}"))?;
        fields.push((key, text.into()));
    }
    let keys: Vec<&str> = fields.iter().map(|(key, _)| *key).collect();
    if keys != ["name", "file", "old", "new"] {
        return Err(format!("not name, file, old, new: {lines:?}"));
    }
    let mut texts = fields.into_iter().map(|(_, text)| text);
    let mut next = || texts.next().expect("four fields");
    Ok(Mutant {
        name: next(),
        file: next(),
        old: next(),
        new: next(),
    })
}

#[cfg(test)]
mod tests {
    use super::parse;

    #[test]
    fn paragraphs_become_mutants() {
        let text = "# a comment\nname: n\nfile: f\nold: a\n    b\nnew: c\n\nname: m\nfile: f\nold: d\nnew: e\n";
        let mutants = parse(text).unwrap();
        assert_eq!(mutants.len(), 2);
        assert_eq!(mutants[0].old, "a\n    b");
        assert_eq!(mutants[1].new, "e");
    }

    #[test]
    fn other_lines_are_refused() {
        assert!(parse("name: n\nfile: f\nold: a\n").is_err());
        assert!(parse("name: n\nfile: f\nold: a\nnew: b\nnew: c\n").is_err());
        assert!(parse("nothing\n").is_err());
    }
}
