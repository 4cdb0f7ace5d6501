//! A call and two outcomes in words that a person can read, and in words that can be pasted.

use crate::call::{Call, ENTRIES, Entry, Kind, Outcome, Param};
use std::fmt::Write;

fn value(word: u64, kind: Kind) -> String {
    match kind {
        Kind::Number | Kind::Numbers => {
            format!("{:?} (0x{word:016x})", f64::from_bits(word))
        }
        _ => word.to_string(),
    }
}

fn list(words: &[u64], kind: Kind) -> String {
    let values: Vec<String> = words.iter().map(|w| value(*w, kind)).collect();
    format!("[{}]", values.join(", "))
}

/// The whole call, parameter by parameter.
pub fn call(call: &Call) -> String {
    let mut text = format!("{}\n", call.entry.name());
    for (param, (name, kind)) in call.inputs.iter().zip(call.entry.shape()) {
        let shown = match param {
            Param::Word(word) => value(*word, *kind),
            Param::List(words) => list(words, *kind),
        };
        writeln!(text, "  {name} = {shown}").unwrap();
    }
    for (content, (name, _)) in call.lent.iter().zip(call.entry.room()) {
        writeln!(text, "  {name}: room for {} words", content.len()).unwrap();
    }
    write!(text, "  paste: {}", pasted(call)).unwrap();
    text
}

/// Where two outcomes differ.
pub fn difference(call: &Call, expected: &Outcome, ours: &Outcome) -> String {
    let mut text = String::new();
    if expected.answer != ours.answer {
        writeln!(text, "  answer expected {:x?}", expected.answer).unwrap();
        writeln!(text, "  answer of ours  {:x?}", ours.answer).unwrap();
    }
    for (i, (name, kind)) in call.entry.room().iter().enumerate() {
        if expected.lent[i] != ours.lent[i] {
            writeln!(text, "  {name} expected {}", list(&expected.lent[i], *kind)).unwrap();
            writeln!(text, "  {name} of ours  {}", list(&ours.lent[i], *kind)).unwrap();
        }
    }
    text
}

/// The call in one line of hexadecimal words: the entry, then each parameter and each lent list. A
/// list has its length before it.
pub fn pasted(call: &Call) -> String {
    let mut words = vec![call.entry.number() as u64];
    words.extend(input_words(call));
    let hex: Vec<String> = words.iter().map(|w| format!("{w:x}")).collect();
    hex.join(" ")
}

/// The inputs of a call, then its lent lists, each list with its length before it.
pub fn input_words(call: &Call) -> Vec<u64> {
    let mut words = Vec::new();
    for param in &call.inputs {
        match param {
            Param::Word(word) => words.push(*word),
            Param::List(list) => add_list(&mut words, list),
        }
    }
    for content in &call.lent {
        add_list(&mut words, content);
    }
    words
}

fn add_list(words: &mut Vec<u64>, list: &[u64]) {
    words.push(list.len() as u64);
    words.extend_from_slice(list);
}

/// Reads what `pasted` wrote.
pub fn parse(text: &str) -> Result<Call, String> {
    let mut words = Vec::new();
    for token in text.split_whitespace() {
        let word = u64::from_str_radix(token, 16).map_err(|e| format!("{token}: {e}"))?;
        words.push(word);
    }
    let mut words = words.into_iter();
    let mut next = || words.next().ok_or("too few words".to_string());
    let entry: Entry = *ENTRIES
        .get(next()? as usize)
        .ok_or("no entry of that number")?;
    let mut call = Call::new(entry);
    for (_, kind) in entry.shape() {
        let word = next()?;
        call.inputs.push(match kind {
            Kind::Number | Kind::Count | Kind::Code | Kind::Edition => Param::Word(word),
            _ => Param::List((0..word).map(|_| next()).collect::<Result<_, _>>()?),
        });
    }
    for _ in entry.room() {
        let length = next()?;
        let content = (0..length).map(|_| next()).collect::<Result<_, _>>()?;
        call.lent.push(content);
    }
    Ok(call)
}
