//! The text of one outline, read.

use crate::failure::Failure;
use crate::number::number;
use mask_tools::{Outline, Vertex};

/// An outline as its text gives it.
#[derive(Debug, Clone, PartialEq)]
pub struct OutlineText {
    /// Its vertices.
    pub vertices: Vec<Vertex>,
    /// Its edition, where the text says one.
    pub edition: Option<u32>,
}

impl OutlineText {
    /// The outline, of this edition where the text says none.
    pub fn outline(self, edition: u32) -> Outline {
        let edition = self.edition.unwrap_or(edition);
        Outline::new(self.vertices).with_edition(edition)
    }
}

/// Reads the text called `name`: a vertex a line, and perhaps an edition.
pub fn read(name: &str, text: &str) -> Result<OutlineText, Failure> {
    let mut outline = OutlineText {
        vertices: Vec::new(),
        edition: None,
    };
    for (number, line) in text.lines().enumerate() {
        let items = line.split('#').next().unwrap_or("");
        let words: Vec<&str> = items.split_whitespace().collect();
        item(&mut outline, &words).map_err(|why| Failure::Line {
            name: name.to_string(),
            line: number + 1,
            why,
        })?;
    }
    if outline.vertices.is_empty() {
        let why = "the text has no vertex".to_string();
        return Err(Failure::Unfit {
            name: name.to_string(),
            why,
        });
    }
    Ok(outline)
}

fn item(outline: &mut OutlineText, words: &[&str]) -> Result<(), String> {
    match words {
        [] => {}
        ["edition", edition] => {
            let why = |_| {
                format!("`{edition}` is no edition: that is a whole number from 0 to 4,294,967,295")
            };
            let edition = edition.parse().map_err(why)?;
            if outline.edition.replace(edition).is_some() {
                return Err("an edition was said already".to_string());
            }
        }
        [x, y] => outline
            .vertices
            .push(Vertex::new(number(x)?, number(y)?, 0.0)),
        [x, y, bulge] => outline
            .vertices
            .push(Vertex::new(number(x)?, number(y)?, number(bulge)?)),
        _ => {
            return Err(format!(
                "a vertex has x, y and perhaps a bulge; here are {} words",
                words.len()
            ))
        }
    }
    Ok(())
}

#[cfg(test)]
mod tests {
    use super::*;

    #[test]
    fn vertices_and_edition() {
        let text = "# A\nedition 7\n0 0\n4 0 1/2 # an arc\n\n4 4\n";
        let made = read("a", text).unwrap();
        assert_eq!(made.vertices[1], Vertex::new(4.0, 0.0, 0.5));
        assert_eq!(made.clone().outline(3).edition(), 7);
        assert_eq!(read("a", "0 0\n").unwrap().outline(3).edition(), 3);
    }

    #[test]
    fn faults_with_their_line() {
        let said = |text: &str| read("a", text).unwrap_err().to_string();
        assert_eq!(
            said("0 0\n1\n"),
            "a: line 2: a vertex has x, y and perhaps a bulge; here are 1 words"
        );
        assert_eq!(said("0 zero\n"), "a: line 1: `zero` is no number");
        assert_eq!(
            said("edition 1\nedition 2\n"),
            "a: line 2: an edition was said already"
        );
        assert!(said("edition -1\n").contains("line 1: `-1` is no edition"));
        assert_eq!(said("# nothing\n"), "a: the text has no vertex");
    }
}
