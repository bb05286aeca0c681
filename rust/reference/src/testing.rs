//! What several modules' tests share.

use crate::refusal::Refusal;

/// Document 01's graph G, written as there: blanks for tabs, commas for line ends.
pub const G: &str = "S p,S q,V a,V b,E a b t p q";

/// The graph text of such a notation.
pub fn graph_text(notation: &str) -> Vec<u8> {
    format!("{}\n", notation.replace(' ', "\t").replace(',', "\n")).into_bytes()
}

/// A text of lines parted by commas, each ended by LF.
pub fn lines_text(notation: &str) -> Vec<u8> {
    format!("{}\n", notation.replace(',', "\n")).into_bytes()
}

pub fn numbered(refusal: Refusal) -> (u8, u32) {
    (refusal.number, refusal.line)
}
