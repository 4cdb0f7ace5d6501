//! `masks vault`: every record of a folder, run again and compared with the answer kept beside it.

use crate::answer::Answer;
use crate::args::Vault;
use crate::failure::{Failure, Status};
use crate::input::{self, unread};
use crate::number::grouped;
use crate::output::{say, tell, Out};
use crate::pbr;
use crate::save;
use indicatif::{ProgressBar, ProgressState, ProgressStyle};
use rayon::prelude::*;
use serde_json::{json, Value};
use std::collections::BTreeMap;
use std::fs;
use std::io::{ErrorKind, Read};
use std::path::{Path, PathBuf};

/// What a record's name ends in.
const RECORD: &str = "pbr";
/// What the name of a kept answer adds to its record's.
const ANSWER: &str = ".answer";
/// More bytes than any answer has: at most 28 chains, and 1,821 vertices of three numbers.
const LONGEST_ANSWER: u64 = 1 << 20;
/// How many lines of a difference are shown.
const SHOWN: usize = 12;

/// The folder's records, and the answers that are kept there, each in order.
#[derive(Default)]
struct Folder {
    records: Vec<PathBuf>,
    answers: Vec<PathBuf>,
}

/// How a record's answer stands to the one kept.
enum Compared {
    AsKept,
    New,
    Differs { kept: String, now: String },
}

/// A record, run again and compared.
struct Tried {
    name: String,
    refused: Option<(u32, String)>,
    compared: Compared,
}

/// What is found in all of the folder.
#[derive(Default)]
struct Summary {
    replayed: usize,
    as_kept: usize,
    new: usize,
    accepted: usize,
    refused: BTreeMap<u32, usize>,
    new_refused: usize,
    differ: Vec<(String, String, String)>,
    gone: Vec<String>,
    failed: Vec<String>,
}

/// Runs the records and says what is found.
pub fn run(args: &Vault) -> Result<Status, Failure> {
    let folder = listed(&args.folder)?;
    let bar = bar_of(folder.records.len());
    let tried: Vec<Result<Tried, Failure>> = folder
        .records
        .par_iter()
        .map(|path| {
            let tried = tried(path, args);
            bar.inc(1);
            tried
        })
        .collect();
    bar.finish_and_clear();
    let mut summary = Summary {
        gone: gone(&folder),
        ..Summary::default()
    };
    for one in tried {
        summary.add(one, args);
    }
    print(args, &summary)?;
    Ok(summary.status())
}

/// A bar on a terminal, and nothing elsewhere.
fn bar_of(records: usize) -> ProgressBar {
    let bar = ProgressBar::new(records as u64);
    let template = "{bar:40} {pos} of {len} records, {rate} a second, {eta} left";
    if let Ok(style) = ProgressStyle::with_template(template) {
        bar.set_style(style.with_key("rate", rate));
    }
    bar
}

fn rate(state: &ProgressState, out: &mut dyn std::fmt::Write) {
    let _ = out.write_str(&grouped(state.per_sec() as u64));
}

/// The records and answers of a folder and of the folders in it.
fn listed(root: &Path) -> Result<Folder, Failure> {
    let mut folder = Folder::default();
    let mut left = vec![root.to_path_buf()];
    while let Some(path) = left.pop() {
        for entry in fs::read_dir(&path).map_err(|error| unread(&path, error))? {
            let entry = entry.map_err(|error| unread(&path, error))?;
            let there = entry.path();
            let kind = entry.file_type().map_err(|error| unread(&there, error))?;
            if kind.is_dir() {
                left.push(there);
            } else if there.extension().map_or(false, |e| e == RECORD) {
                folder.records.push(there);
            } else if record_of(&there).is_some() {
                folder.answers.push(there);
            }
        }
    }
    folder.records.sort();
    folder.answers.sort();
    Ok(folder)
}

/// The record that an answer is kept of; none where the file is no answer.
fn record_of(answer: &Path) -> Option<PathBuf> {
    let record = answer.to_str()?.strip_suffix(ANSWER)?;
    record
        .ends_with(&format!(".{RECORD}"))
        .then(|| PathBuf::from(record))
}

fn answer_of(record: &Path) -> PathBuf {
    let mut name = record.as_os_str().to_owned();
    name.push(ANSWER);
    PathBuf::from(name)
}

/// Answers whose records are not there any more.
fn gone(folder: &Folder) -> Vec<String> {
    let is_gone = |record: &PathBuf| folder.records.binary_search(record).is_err();
    folder
        .answers
        .iter()
        .filter_map(|answer| record_of(answer))
        .filter(is_gone)
        .map(|r| input::name_of(&r))
        .collect()
}

/// Runs a record again, compares, and keeps the answer where that is asked for.
fn tried(path: &Path, args: &Vault) -> Result<Tried, Failure> {
    let record = input::record(path)?;
    let answer = Answer::of(&record);
    let now = answer.full_text();
    let beside = answer_of(path);
    let compared = match kept(&beside)? {
        None => Compared::New,
        Some(kept) if kept == now => Compared::AsKept,
        Some(kept) => Compared::Differs {
            kept,
            now: now.clone(),
        },
    };
    let keep = match compared {
        Compared::New => args.accept,
        Compared::Differs { .. } => args.accept_changed,
        Compared::AsKept => false,
    };
    if keep {
        save::save(&beside, now.as_bytes())?;
    }
    let refused = answer
        .refusal()
        .map(|number| (number, pbr::why(number, &record)));
    Ok(Tried {
        name: input::name_of(path),
        refused,
        compared,
    })
}

/// The answer that is kept, where there is one. Of a file that is longer than any answer no more is read than shows it.
fn kept(path: &Path) -> Result<Option<String>, Failure> {
    let file = match fs::File::open(path) {
        Ok(file) => file,
        Err(error) if error.kind() == ErrorKind::NotFound => return Ok(None),
        Err(error) => return Err(unread(path, error)),
    };
    let mut bytes = Vec::new();
    let read = file.take(LONGEST_ANSWER).read_to_end(&mut bytes);
    read.map_err(|error| unread(path, error))?;
    Ok(Some(String::from_utf8_lossy(&bytes).into_owned()))
}

impl Summary {
    fn add(&mut self, tried: Result<Tried, Failure>, args: &Vault) {
        let one = match tried {
            Ok(one) => one,
            Err(failure) => {
                tell(&failure);
                return self.failed.push(failure.to_string());
            }
        };
        self.replayed += 1;
        if let Some((number, _)) = one.refused {
            *self.refused.entry(number).or_default() += 1;
        }
        match one.compared {
            Compared::AsKept => self.as_kept += 1,
            Compared::Differs { kept, now } => self.differ.push((one.name, kept, now)),
            Compared::New => self.add_new(one.name, one.refused, args),
        }
    }

    fn add_new(&mut self, name: String, refused: Option<(u32, String)>, args: &Vault) {
        self.new += 1;
        self.accepted += usize::from(args.accept);
        if let Some((number, why)) = refused {
            self.new_refused += 1;
            tell(&Failure::Refused { name, number, why });
        }
    }

    fn status(&self) -> Status {
        if !self.failed.is_empty() {
            return Status::Failed;
        }
        let found = !self.differ.is_empty() || !self.gone.is_empty() || self.new_refused > 0;
        if found {
            Status::Found
        } else {
            Status::Good
        }
    }

    fn lines(&self) -> Vec<String> {
        let count = |count: usize| grouped(count as u64);
        let mut lines = vec![
            format!("replayed {}", count(self.replayed)),
            format!("as kept  {}", count(self.as_kept)),
            format!("differ   {}", count(self.differ.len())),
            format!("new      {}{}", count(self.new), self.new_note()),
            format!(
                "refused  {}{}",
                count(self.refused.values().sum()),
                self.refused_note()
            ),
        ];
        if !self.gone.is_empty() {
            lines.push(format!("gone     {}", count(self.gone.len())));
        }
        if !self.failed.is_empty() {
            lines.push(format!("unread   {}", count(self.failed.len())));
        }
        lines
    }

    fn new_note(&self) -> &'static str {
        match (self.new, self.accepted) {
            (0, _) => "",
            (_, 0) => ", nothing to compare with: --accept keeps their answers",
            _ => ", answers kept",
        }
    }

    fn refused_note(&self) -> String {
        if self.refused.is_empty() {
            return String::new();
        }
        let of =
            |(number, count): (&u32, &usize)| format!("{} with {number}", grouped(*count as u64));
        let each: Vec<String> = self.refused.iter().map(of).collect();
        format!(": {}", each.join(", "))
    }

    fn json(&self, folder: &Path) -> Value {
        let refused: serde_json::Map<String, Value> = self
            .refused
            .iter()
            .map(|(number, count)| (number.to_string(), json!(count)))
            .collect();
        let differ: Vec<Value> = self
            .differ
            .iter()
            .map(|(name, kept, now)| json!({ "file": name, "kept": kept, "now": now }))
            .collect();
        json!({
            "folder": folder.display().to_string(),
            "replayed": self.replayed,
            "as_kept": self.as_kept,
            "new": self.new,
            "accepted": self.accepted,
            "refused": refused,
            "differ": differ,
            "gone": self.gone,
            "failed": self.failed,
        })
    }
}

fn print(args: &Vault, summary: &Summary) -> Result<(), Failure> {
    let mut out = Out::new();
    if args.json {
        out.json(&summary.json(&args.folder))?;
        return out.finish();
    }
    for name in &summary.gone {
        out.line(&format!("{name}: gone, and its answer is still kept"))?;
    }
    for (name, kept, now) in &summary.differ {
        out.line(&format!(
            "{name}: differs{}",
            if args.accept_changed {
                ", and the new answer is kept"
            } else {
                ""
            }
        ))?;
        for line in difference(kept, now) {
            out.line(&format!("  {line}"))?;
        }
    }
    for line in summary.lines() {
        out.line(&line)?;
    }
    out.finish()?;
    if summary.replayed == 0 {
        say(&format!(
            "{}: no record, which is a file whose name ends in .pbr",
            args.folder.display()
        ));
    }
    Ok(())
}

/// The lines of two answers that differ: what was kept, with -, and what is now, with +.
fn difference(kept: &str, now: &str) -> Vec<String> {
    let (kept, now): (Vec<&str>, Vec<&str>) = (kept.lines().collect(), now.lines().collect());
    let same = kept.iter().zip(&now).take_while(|(a, b)| a == b).count();
    let (kept, now) = (&kept[same..], &now[same..]);
    let tail = kept
        .iter()
        .rev()
        .zip(now.iter().rev())
        .take_while(|(a, b)| a == b)
        .count();
    let (kept, now) = (&kept[..kept.len() - tail], &now[..now.len() - tail]);
    let mut lines = Vec::new();
    for (sign, part) in [('-', kept), ('+', now)] {
        lines.extend(part.iter().take(SHOWN).map(|line| format!("{sign} {line}")));
        if part.len() > SHOWN {
            lines.push(format!("{sign} ... and {} lines more", part.len() - SHOWN));
        }
    }
    if lines.is_empty() {
        lines.push("the last line feed differs".to_string());
    }
    lines
}

#[cfg(test)]
mod tests {
    use super::*;

    #[test]
    fn answers_and_their_records() {
        let record = Path::new("a/b.pbr");
        assert_eq!(answer_of(record), PathBuf::from("a/b.pbr.answer"));
        assert_eq!(
            record_of(Path::new("a/b.pbr.answer")),
            Some(record.to_path_buf())
        );
        assert_eq!(record_of(Path::new("a/b.answer")), None);
        assert_eq!(record_of(record), None);
    }

    #[test]
    fn what_differs_is_shown() {
        let kept = "slices 2\n0 1 closed 8\nloop 0\n2 4 0\n";
        let now = "slices 2\n0 1 closed 7\nloop 0\n2 4 0\n";
        assert_eq!(difference(kept, now), ["- 0 1 closed 8", "+ 0 1 closed 7"]);
        assert_eq!(difference("a\n", "refused 14\n"), ["- a", "+ refused 14"]);
        assert_eq!(difference("a", "a\n"), ["the last line feed differs"]);
        let long: String = (0..20).map(|k| format!("{k}\n")).collect();
        assert_eq!(
            difference(&long, "").last().unwrap(),
            "- ... and 8 lines more"
        );
    }

    #[test]
    fn the_summary_decides_the_status() {
        let gone = Summary {
            gone: vec!["a".into()],
            ..Summary::default()
        };
        let failed = Summary {
            failed: vec!["a".into()],
            gone: vec!["b".into()],
            ..Summary::default()
        };
        let refused = Summary {
            new: 1,
            new_refused: 1,
            ..Summary::default()
        };
        let statuses = [Summary::default(), gone, refused, failed].map(|s| s.status());
        assert_eq!(
            statuses,
            [Status::Good, Status::Found, Status::Found, Status::Failed]
        );
    }
}
