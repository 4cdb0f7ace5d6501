//! What the library answers to a record: a replay, or a refusal.

use crate::input::RecordBytes;
use crate::pbr;
use mask_tools::{Chain, ChainEnd, Record, Refusal, Replay};
use serde_json::{json, Value};

/// The library's answer to a record.
pub struct Answer(Result<Replay, Refusal>);

impl Answer {
    /// Runs a record again.
    pub fn of(record: &RecordBytes) -> Answer {
        Answer(Record::from_bytes(&record.bytes[..]).replay())
    }

    /// The number of the refusal, where it is one.
    pub fn refusal(&self) -> Option<u32> {
        self.0.as_ref().err().map(|refusal| refusal.number())
    }

    /// The replay, where it is not refused.
    pub fn replay(&self) -> Option<&Replay> {
        self.0.as_ref().ok()
    }

    /// What the program `replay` prints of it.
    pub fn text(&self) -> String {
        match &self.0 {
            Ok(replay) => replay.to_string(),
            Err(refusal) => format!("refused {}\n", refusal.number()),
        }
    }

    /// That, and the vertices of the loops, each number to its last bit.
    pub fn full_text(&self) -> String {
        let mut text = self.text();
        for (number, vertices) in self
            .replay()
            .iter()
            .flat_map(|r| r.stitched.loops())
            .enumerate()
        {
            text.push_str(&format!("loop {number}\n"));
            for vertex in vertices {
                text.push_str(&pbr::vertex_words(vertex));
                text.push('\n');
            }
        }
        text
    }

    /// It as JSON, with the reason where it is a refusal.
    pub fn json(&self, name: &str, record: &RecordBytes) -> Value {
        match &self.0 {
            Ok(replay) => replay_json(name, replay),
            Err(refusal) => {
                let number = refusal.number();
                json!({ "file": name, "refused": number, "why": pbr::why(number, record) })
            }
        }
    }
}

/// The word for how a chain ended, as the program `replay` prints it.
pub fn end_word(end: ChainEnd) -> &'static str {
    match end {
        ChainEnd::Closed => "closed",
        ChainEnd::TooSmall => "small",
        ChainEnd::NoCandidate => "empty",
        ChainEnd::NotSelected => "unselected",
    }
}

fn replay_json(name: &str, replay: &Replay) -> Value {
    let vertices: Vec<Value> = replay
        .stitched
        .loops()
        .map(|vertices| {
            vertices
                .iter()
                .map(|v| json!([v.x, v.y, v.bulge]))
                .collect()
        })
        .collect();
    let chain = |chain: Chain<'_>| json!({ "slices": chain.slices, "end": end_word(chain.end) });
    json!({
        "file": name,
        "refused": null,
        "version": replay.version.number(),
        "slices": replay.slices,
        "rounds": replay.stitched.rounds(),
        "chains": replay.stitched.chains().map(chain).collect::<Vec<Value>>(),
        "loops": vertices,
    })
}
