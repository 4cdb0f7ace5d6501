//! The readable text of a record, read. Every fault of it is told with its line.

use super::SELECTORS;
use crate::failure::Failure;
use crate::input;
use crate::number::number;
use mask_tools::{
    Outline, Point, RecordContents, RecordSlice, RecordVersion, Starts, Tolerance, Vertex, View,
};
use std::path::{Path, PathBuf};

/// How many texts deep one may name another.
const DEEPEST: usize = 8;

/// What a text says.
#[derive(Debug, Clone, PartialEq)]
pub struct Draft {
    /// The record's contents. Codes, counts and numbers stand as they were written.
    pub contents: RecordContents,
    /// Edits of its bytes, made in turn, so that refusals can be shown.
    pub edits: Vec<Edit>,
    /// The first line that asks for an edit.
    pub edited_on: Option<usize>,
}

/// An edit of a record's bytes.
#[derive(Debug, Clone, PartialEq, Eq)]
pub enum Edit {
    /// The bytes from a place on are these.
    Set(usize, Vec<u8>),
    /// So many bytes are taken out from a place on.
    Drop(usize, usize),
    /// So many bytes from a place on are added at the end, so many times.
    Copy(usize, usize, usize),
    /// So many bytes are taken off at the end.
    Cut(usize),
    /// So many bytes 0 are added at the end.
    Pad(usize),
}

/// Something that a text says once, and on which line.
type Said<T> = Option<(T, usize)>;

/// What was read so far.
#[derive(Default)]
struct Reader {
    line: usize,
    version: Said<u16>,
    selector: Said<u8>,
    tolerance: Said<Vec<f64>>,
    editions: Said<[u32; 2]>,
    starts: Said<[u16; 3]>,
    outlines: [Vec<Vertex>; 2],
    slices: Vec<(RecordSlice, Option<u32>, usize)>,
    base: Said<Draft>,
    edits: Vec<Edit>,
    edited_on: Option<usize>,
    folder: PathBuf,
    depth: usize,
}

/// A fault: of a line, or of the text as a whole.
struct Fault {
    line: Option<usize>,
    why: String,
}

/// Reads the text called `name`. Texts that it names lie in the folder.
pub fn draft(name: &str, text: &str, folder: &Path) -> Result<Draft, Failure> {
    draft_within(name, text, folder, 0)
}

fn draft_within(name: &str, text: &str, folder: &Path, depth: usize) -> Result<Draft, Failure> {
    let mut reader = Reader {
        folder: folder.to_path_buf(),
        depth,
        ..Reader::default()
    };
    read(&mut reader, text)
        .and_then(|()| reader.draft())
        .map_err(|fault| {
            let (name, why) = (name.to_string(), fault.why);
            match fault.line {
                Some(line) => Failure::Line { name, line, why },
                None => Failure::Unfit { name, why },
            }
        })
}

fn read(reader: &mut Reader, text: &str) -> Result<(), Fault> {
    for (number, line) in text.lines().enumerate() {
        reader.line = number + 1;
        let items = line.split('#').next().unwrap_or("");
        let words: Vec<&str> = items.split_whitespace().collect();
        if let Some((first, rest)) = words.split_first() {
            reader.item(first, rest).map_err(|why| Fault {
                line: Some(number + 1),
                why,
            })?;
        }
    }
    Ok(())
}

impl Reader {
    fn item(&mut self, first: &str, rest: &[&str]) -> Result<(), String> {
        let line = self.line;
        match first {
            "1" => self.vertex(0, rest),
            "2" => self.vertex(1, rest),
            "slice" => self.slice(rest),
            "version" => once(&mut self.version, line, one(first, rest, code)?),
            "selector" => once(&mut self.selector, line, one(first, rest, selector)?),
            "tolerance" => once(&mut self.tolerance, line, tolerances(rest)?),
            "editions" => once(&mut self.editions, line, several(first, rest, code)?),
            "starts" => once(&mut self.starts, line, several(first, rest, code)?),
            "of" => self.base(rest),
            "set" | "drop" | "copy" | "cut" | "pad" => {
                self.edits.push(edit(first, rest)?);
                self.edited_on.get_or_insert(line);
                Ok(())
            }
            _ => Err(format!(
                "`{first}` begins no item; an item is 1, 2, slice, version, selector, tolerance, editions or starts"
            )),
        }
    }

    /// Another text, which this one edits.
    fn base(&mut self, words: &[&str]) -> Result<(), String> {
        let name = one("of", words, |_, word| Ok(word.to_string()))?;
        if self.depth >= DEEPEST {
            return Err(format!("texts that name each other: more than {DEEPEST}"));
        }
        let path = self.folder.join(format!("{name}.txt"));
        let text = input::text(&path).map_err(|failure| failure.to_string())?;
        let base = draft_within(
            &path.display().to_string(),
            &text,
            &self.folder,
            self.depth + 1,
        );
        once(
            &mut self.base,
            self.line,
            base.map_err(|failure| failure.to_string())?,
        )
    }

    fn vertex(&mut self, outline: usize, words: &[&str]) -> Result<(), String> {
        let [x, y, bulge] = numbers("a vertex", "x, y and bulge", words)?;
        self.outlines[outline].push(Vertex::new(x, y, bulge));
        Ok(())
    }

    fn slice(&mut self, words: &[&str]) -> Result<(), String> {
        if words.len() != 10 && words.len() != 11 {
            return Err(format!(
                "a slice has 10 words, and 11 in version 2: source, + or -, start, offset, start x y bulge, end bulge, end x y, edition; here are {}",
                words.len()
            ));
        }
        let source = code("source", words[0])?;
        let inverted = direction(words[1])?;
        let [x, y, bulge, end_bulge, end_x, end_y] =
            numbers("a slice", "six numbers", &words[4..10])?;
        let edition = words
            .get(10)
            .map(|word| code("edition", word))
            .transpose()?;
        let view = View {
            start_index: code::<u16>("start", words[2])?.into(),
            end_index_offset: code::<u16>("offset", words[3])?.into(),
            updated_start: Vertex::new(x, y, bulge),
            updated_end_bulge: end_bulge,
            end_point: Point::new(end_x, end_y),
            inverted_direction: inverted == 1,
            edition: edition.unwrap_or(0),
        };
        self.slices.push((
            RecordSlice {
                source_code: source,
                inverted_code: inverted,
                view,
            },
            edition,
            self.line,
        ));
        Ok(())
    }

    /// What the whole text says.
    fn draft(mut self) -> Result<Draft, Fault> {
        if let Some((base, line)) = self.base.take() {
            return self.edited(base, line);
        }
        self.whole()?;
        Ok(Draft {
            contents: self.contents()?,
            edits: self.edits,
            edited_on: self.edited_on,
        })
    }

    /// Another text's draft, with the edits of this one.
    fn edited(mut self, mut base: Draft, line: usize) -> Result<Draft, Fault> {
        if self.has_items() {
            let why = "behind `of` stand edits alone, and no items".to_string();
            return Err(Fault {
                line: Some(line),
                why,
            });
        }
        base.edits.append(&mut self.edits);
        base.edited_on = Some(self.edited_on.unwrap_or(line));
        Ok(base)
    }

    /// The contents of a text that has all its items.
    fn contents(&self) -> Result<RecordContents, Fault> {
        let (version, editions) = self.version_and_editions()?;
        let [pline2, pline1_overlapping, pline2_overlapping] =
            value(&self.starts).unwrap_or_default().map(usize::from);
        let outline = |k: usize| Outline::new(self.outlines[k].clone()).with_edition(editions[k]);
        let slices = self
            .slices
            .iter()
            .map(|(slice, edition, _)| of_edition(*slice, *edition, editions));
        Ok(RecordContents {
            version,
            pline1: outline(0),
            pline2: outline(1),
            selector_code: value(&self.selector).unwrap_or_default(),
            tolerance: self.tolerance(version)?,
            starts: Starts {
                pline2,
                pline1_overlapping,
                pline2_overlapping,
            },
            slices: slices.collect(),
        })
    }

    fn has_items(&self) -> bool {
        let said = [
            self.version.is_some(),
            self.selector.is_some(),
            self.tolerance.is_some(),
        ];
        let lists = [
            !self.outlines[0].is_empty(),
            !self.outlines[1].is_empty(),
            !self.slices.is_empty(),
        ];
        said.contains(&true)
            || lists.contains(&true)
            || self.editions.is_some()
            || self.starts.is_some()
    }

    /// Refuses a text that leaves an item out that every record has.
    fn whole(&self) -> Result<(), Fault> {
        if self.line == 0 {
            return Err(of_text("the text is empty"));
        }
        let missing = [
            ("selector", self.selector.is_none()),
            ("tolerance", self.tolerance.is_none()),
            ("starts", self.starts.is_none()),
            ("1 (a vertex of outline 1)", self.outlines[0].is_empty()),
            ("2 (a vertex of outline 2)", self.outlines[1].is_empty()),
        ];
        let missing: Vec<&str> = missing
            .iter()
            .filter(|(_, is)| *is)
            .map(|(item, _)| *item)
            .collect();
        if missing.is_empty() {
            return Ok(());
        }
        Err(of_text(&format!(
            "the text has no line that begins with: {}",
            missing.join(", ")
        )))
    }

    /// The version of the layout, and the outlines' editions, which go together.
    fn version_and_editions(&self) -> Result<(RecordVersion, [u32; 2]), Fault> {
        let editions = value(&self.editions).unwrap_or_default();
        match self.version {
            Some((2, _)) => return Ok((RecordVersion::Two, editions)),
            None | Some((1, _)) => {}
            Some((other, line)) => {
                let why = format!("version {other} is unknown; versions are 1 and 2");
                return Err(Fault {
                    line: Some(line),
                    why,
                });
            }
        }
        let of_slice = self
            .slices
            .iter()
            .find(|(_, edition, _)| edition.is_some())
            .map(|(.., line)| *line);
        match self.editions.map(|(_, line)| line).or(of_slice) {
            None => Ok((RecordVersion::One, editions)),
            Some(line) => Err(Fault {
                line: Some(line),
                why: "editions are of version 2 only: begin the text with `version 2`".to_string(),
            }),
        }
    }

    /// Both tolerances. One word stands for both.
    fn tolerance(&self, version: RecordVersion) -> Result<Tolerance, Fault> {
        let (words, line) = match &self.tolerance {
            Some((words, line)) => (&words[..], *line),
            None => (&[][..], 0),
        };
        match words {
            [both] => Ok(Tolerance::new(*both)),
            [x, y] if version == RecordVersion::Two => Ok(Tolerance { x: *x, y: *y }),
            _ => Err(Fault {
                line: Some(line),
                why: "version 1 holds one tolerance: for two begin the text with `version 2`"
                    .to_string(),
            }),
        }
    }
}

/// A slice of the edition that its line says, or else of its outline's.
fn of_edition(slice: RecordSlice, said: Option<u32>, editions: [u32; 2]) -> RecordSlice {
    let outline = usize::from(slice.source_code.clamp(1, 2)) - 1;
    let edition = said.unwrap_or(editions[outline]);
    RecordSlice {
        view: View {
            edition,
            ..slice.view
        },
        ..slice
    }
}

fn of_text(why: &str) -> Fault {
    Fault {
        line: None,
        why: why.to_string(),
    }
}

fn value<T: Clone>(said: &Said<T>) -> Option<T> {
    said.as_ref().map(|(value, _)| value.clone())
}

/// Keeps what is said, unless it was said before.
fn once<T>(place: &mut Said<T>, line: usize, what: T) -> Result<(), String> {
    if let Some((_, first)) = place {
        return Err(format!("this was said on line {first} already"));
    }
    *place = Some((what, line));
    Ok(())
}

/// The one word behind an item.
fn one<T>(
    item: &str,
    words: &[&str],
    read: impl Fn(&str, &str) -> Result<T, String>,
) -> Result<T, String> {
    match words {
        [word] => read(item, word),
        _ => Err(format!(
            "behind `{item}` stands one word, and not {}",
            words.len()
        )),
    }
}

/// So many words behind an item.
fn several<T, const N: usize>(
    item: &str,
    words: &[&str],
    read: impl Fn(&str, &str) -> Result<T, String>,
) -> Result<[T; N], String> {
    let values: Vec<T> = words
        .iter()
        .map(|word| read(item, word))
        .collect::<Result<_, _>>()?;
    values.try_into().map_err(|values: Vec<T>| {
        format!("behind `{item}` stand {N} words, and not {}", values.len())
    })
}

/// So many numbers.
fn numbers<const N: usize>(of: &str, which: &str, words: &[&str]) -> Result<[f64; N], String> {
    let values: Vec<f64> = words
        .iter()
        .map(|word| number(word))
        .collect::<Result<_, _>>()?;
    values
        .try_into()
        .map_err(|values: Vec<f64>| format!("{of} has {which}; here are {} numbers", values.len()))
}

/// A whole number that fits its field.
fn code<T>(field: &str, word: &str) -> Result<T, String>
where
    T: TryFrom<u64>,
{
    let value: u64 = word
        .parse()
        .map_err(|_| format!("{field}: `{word}` is no whole number from 0 on"))?;
    T::try_from(value).map_err(|_| {
        let most = (1u64 << (8 * std::mem::size_of::<T>())) - 1;
        format!("{field}: {word} is too large: the most that its field holds is {most}")
    })
}

fn direction(word: &str) -> Result<u8, String> {
    match word {
        "+" => Ok(0),
        "-" => Ok(1),
        _ => code("direction", word),
    }
}

fn selector(item: &str, word: &str) -> Result<u8, String> {
    if let Some(code) = SELECTORS.iter().position(|known| *known == word) {
        return Ok(code as u8);
    }
    code(item, word).map_err(|why| format!("{why}; the selectors are or_and and not_xor"))
}

fn tolerances(words: &[&str]) -> Result<Vec<f64>, String> {
    if words.len() != 1 && words.len() != 2 {
        return Err(format!(
            "behind `tolerance` stand one number, or two, of x and of y; here are {}",
            words.len()
        ));
    }
    words.iter().map(|word| number(word)).collect()
}

/// An edit of a record's bytes.
fn edit(item: &str, words: &[&str]) -> Result<Edit, String> {
    match item {
        "set" => set(words),
        "drop" => several(item, words, place).map(|[at, count]| Edit::Drop(at, count)),
        "copy" => {
            several(item, words, place).map(|[at, count, times]| Edit::Copy(at, count, times))
        }
        "cut" => several(item, words, place).map(|[count]| Edit::Cut(count)),
        _ => several(item, words, place).map(|[count]| Edit::Pad(count)),
    }
}

fn set(words: &[&str]) -> Result<Edit, String> {
    let (at, bytes) = match words {
        [at, bytes @ ..] if !bytes.is_empty() => (place("set", at)?, bytes),
        _ => return Err("behind `set` stand a place and bytes in hex".to_string()),
    };
    let byte = |word: &&str| {
        u8::from_str_radix(word, 16).map_err(|_| format!("set: `{word}` is no byte in hex"))
    };
    Ok(Edit::Set(
        at,
        bytes.iter().map(byte).collect::<Result<_, _>>()?,
    ))
}

/// A place in a record, or a number of bytes.
fn place(item: &str, word: &str) -> Result<usize, String> {
    let place: u16 = code(item, word)?;
    Ok(place.into())
}

#[cfg(test)]
mod tests {
    use super::*;

    const UNION: &str = "selector or_and\ntolerance 1/1024\nstarts 1 2 2\n\
        1 0 0 0\n1 4 0 0\n1 4 4 0\n1 0 4 0\n2 2 2 0\n2 6 2 0\n2 6 6 0\n2 2 6 0\n\
        slice 1 + 2 3  2 4 0  0  4 2\nslice 2 + 0 3  4 2 0  0  2 4\n";

    fn said(text: &str) -> String {
        draft("t", text, Path::new(".")).unwrap_err().to_string()
    }

    #[test]
    fn the_union_is_read() {
        let made = draft("t", &format!("# a comment\n\n{UNION}"), Path::new(".")).unwrap();
        let contents = made.contents;
        assert_eq!(contents.version, RecordVersion::One);
        assert_eq!(
            (
                contents.pline1.vertex_count(),
                contents.pline2.vertex_count()
            ),
            (4, 4)
        );
        assert_eq!(contents.tolerance, Tolerance::new(1.0 / 1024.0));
        assert_eq!(contents.slices[0].view.end_index_offset, 3);
        assert_eq!((made.edits, made.edited_on), (vec![], None));
    }

    #[test]
    fn version_2_has_editions_and_two_tolerances() {
        let two = UNION
            .replace(
                "tolerance 1/1024",
                "version 2\ntolerance 1/1024 1/4096\neditions 7 4294967295",
            )
            .replace("  4 2\n", "  4 2  7\n")
            .replace("  2 4\n", "  2 4  3\n");
        let left_out = draft("t", &two.replace("  4 2  7", "  4 2"), Path::new("."))
            .unwrap()
            .contents;
        assert_eq!(left_out.slices[0].view.edition, 7);
        let contents = draft("t", &two, Path::new(".")).unwrap().contents;
        assert_eq!(contents.version, RecordVersion::Two);
        assert_eq!(
            (contents.pline1.edition(), contents.pline2.edition()),
            (7, u32::MAX)
        );
        assert_eq!(
            (
                contents.slices[0].view.edition,
                contents.slices[1].view.edition
            ),
            (7, 3)
        );
        assert_eq!(
            (contents.tolerance.x, contents.tolerance.y),
            (1.0 / 1024.0, 1.0 / 4096.0)
        );
    }

    #[test]
    fn faults_are_told_with_their_line() {
        let with = |from: &str, to: &str| said(&UNION.replacen(from, to, 1));
        assert_eq!(
            with("starts 1", "starts 70000"),
            "t: line 3: starts: 70000 is too large: the most that its field holds is 65535"
        );
        assert_eq!(with("1/1024", "1/0"), "t: line 2: `1/0` divides by 0");
        assert!(with("1/1024", "1e999").starts_with("t: line 2: `1e999` is larger"));
        assert!(with("1 4 0 0", "1 4 0").starts_with("t: line 5: a vertex has x, y and bulge"));
        assert!(with("slice 1", "slice 300").contains("line 12: source: 300 is too large"));
        assert!(with("slice 1 +", "slice 1 x").contains("line 12: direction: `x`"));
        assert!(with("  4 2\n", "\n").contains("line 12: a slice has 10 words"));
        assert!(with("selector or_and", "selector xor")
            .contains("the selectors are or_and and not_xor"));
        assert!(with("selector", "selektor").contains("line 1: `selektor` begins no item"));
        assert!(with("starts", "selector or_and\nstarts")
            .contains("line 3: this was said on line 1 already"));
        assert!(with("tolerance 1/1024", "tolerance 1 1")
            .contains("line 2: version 1 holds one tolerance"));
        assert!(with("tolerance", "editions 1 1\ntolerance")
            .contains("line 2: editions are of version 2"));
        assert!(with("  4 2\n", "  4 2 7\n").contains("line 12: editions are of version 2"));
        assert!(with("tolerance", "version 3\ntolerance").contains("line 2: version 3 is unknown"));
        assert!(with("tolerance", "set 3 0g\ntolerance")
            .contains("line 2: set: `0g` is no byte in hex"));
        assert!(
            with("tolerance", "cut 1 2\ntolerance").contains("line 2: behind `cut` stand 1 words")
        );
    }

    #[test]
    fn a_text_that_leaves_something_out() {
        assert_eq!(said(""), "t: the text is empty");
        assert!(said("# nothing\n")
            .contains("no line that begins with: selector, tolerance, starts, 1 "));
        assert!(said(&UNION.replacen("starts 1 2 2\n", "", 1)).ends_with("begins with: starts"));
    }

    #[test]
    fn edits_are_kept_in_turn() {
        let text = format!("{UNION}set 2 53\ncut 1\ndrop 26 72\ncopy 272 54 27\npad 2\n");
        let made = draft("t", &text, Path::new(".")).unwrap();
        assert_eq!(made.edited_on, Some(14));
        let edits = [
            Edit::Set(2, vec![0x53]),
            Edit::Cut(1),
            Edit::Drop(26, 72),
            Edit::Copy(272, 54, 27),
            Edit::Pad(2),
        ];
        assert_eq!(made.edits, edits);
    }

    #[test]
    fn a_text_that_names_another() {
        let folder = Path::new(concat!(env!("CARGO_MANIFEST_DIR"), "/../../examples"));
        let made = draft("t", "# late\nof union\ncut 1\n", folder).unwrap();
        assert_eq!((made.edits, made.edited_on), (vec![Edit::Cut(1)], Some(3)));
        assert_eq!(made.contents.slices.len(), 2);
        let said = |text: &str| draft("t", text, folder).unwrap_err().to_string();
        assert!(
            said("of missing_text\n").contains("line 1: ")
                && said("of missing_text\n").contains("cannot be read")
        );
        assert!(said("of union\n1 0 0 0\n").contains("line 1: behind `of` stand edits alone"));
    }
}
