//! The record `PBR`: its readable text, its bytes as they stand, and the place of a fault in it.

mod bytes;
mod explain;
mod shown;
mod text;

pub use bytes::laid_out;
pub use explain::{why, why_of_contents};
pub use shown::{shown, vertex_words};
pub use text::{draft, Draft, Edit};

/// The words for the selectors' codes.
const SELECTORS: [&str; 2] = ["or_and", "not_xor"];

/// The word for a selector's code, or its number where the code is unknown.
pub fn selector_word(code: u8) -> String {
    match SELECTORS.get(usize::from(code)) {
        Some(word) => (*word).to_string(),
        None => code.to_string(),
    }
}
