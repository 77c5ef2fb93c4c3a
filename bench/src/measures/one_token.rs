//! Nesting of depth 0: `skip_many` of one token. The result is how many bytes it took.

use crate::classes::{is_digit, is_lower, past};
use crate::measure::Measure;
use crate::{by_combine, by_nom, inputs};

pub const MEASURE: Measure = Measure {
    name: "one_token",
    what: "`skip_many(t)`, t a letter or a digit",
    input: inputs::pairs,
    pieces: &[0, 4096],
    sides: &[("hand", hand), ("combine", combine), ("nom", nom)],
};

fn fits(byte: u8) -> bool {
    is_lower(byte) || is_digit(byte)
}

fn hand(bytes: &[u8], piece: usize) -> u64 {
    let mut taken = 0;
    for piece in bytes.chunks(if piece == 0 { bytes.len().max(1) } else { piece }) {
        let end = past(piece, 0, fits);
        taken += end as u64;
        if end < piece.len() {
            break;
        }
    }
    taken
}

fn combine(bytes: &[u8], piece: usize) -> u64 {
    use combine::{satisfy, skip_many};
    by_combine::taken(skip_many(satisfy(fits)), skip_many(satisfy(fits)), bytes, piece)
}

fn nom(bytes: &[u8], piece: usize) -> u64 {
    by_nom::taken(complete::one, streaming::one, bytes, piece)
}

crate::both_forms! {
    pub fn one(input: &[u8]) -> nom::IResult<&[u8], char> {
        satisfy(|c| c.is_ascii_lowercase() || c.is_ascii_digit())(input)
    }
}
