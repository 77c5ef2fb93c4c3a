//! Nesting: `skip_many` of a tuple of 2 tuples of 2. The result is how many bytes it took.

use crate::classes::{is_digit, is_lower};
use crate::measure::Measure;
use crate::{by_combine, by_hand, by_nom, inputs};

pub const MEASURE: Measure = Measure {
    name: "tuple_of_tuples",
    what: "`skip_many(((a, 1), (a, 1)))`, a a letter, 1 a digit",
    input: inputs::pairs,
    pieces: &[0, 4096],
    sides: &[("hand", hand), ("combine", combine), ("nom", nom)],
};

fn hand(bytes: &[u8], piece: usize) -> u64 {
    by_hand::cycles::<4>(bytes, piece)
}

fn combine(bytes: &[u8], piece: usize) -> u64 {
    use combine::skip_many;
    by_combine::taken(skip_many(tuple()), skip_many(tuple()), bytes, piece)
}

fn tuple<I: combine::Stream<Token = u8>>() -> impl combine::Parser<I> {
    use combine::satisfy;
    ((satisfy(is_lower), satisfy(is_digit)), (satisfy(is_lower), satisfy(is_digit)))
}

fn nom(bytes: &[u8], piece: usize) -> u64 {
    by_nom::taken(complete::one, streaming::one, bytes, piece)
}

crate::both_forms! {
    pub fn one(input: &[u8]) -> nom::IResult<&[u8], ()> {
        use nom::{combinator::map, sequence::pair};
        let letter = || satisfy(|c| c.is_ascii_lowercase());
        let digit = || satisfy(|c| c.is_ascii_digit());
        map(pair(pair(letter(), digit()), pair(letter(), digit())), |_| ())(input)
    }
}
