//! A choice over eight keywords, as a tuple. The result is how many bytes it took.

use crate::measure::{Measure, REFUSED};
use crate::{by_combine, inputs, keywords};

pub const MEASURE: Measure = Measure {
    name: "keywords_tuple",
    what: "`skip_many(choice(..))` over a tuple of eight keywords, each `attempt(..)` of its letters",
    input: inputs::keywords,
    pieces: &[0, 4096],
    sides: &[("hand", keywords::hand), ("combine", combine), ("nom", keywords::nom)],
};

fn combine(bytes: &[u8], piece: usize) -> u64 {
    use combine::{choice, skip_many};
    if piece != 0 {
        return keywords::combine_in_pieces(bytes, piece);
    }
    let one = keywords::keyword_at;
    let choice = choice((one(0), one(1), one(2), one(3), one(4), one(5), one(6), one(7)));
    by_combine::whole(skip_many(choice), bytes).map_or(REFUSED, |((), taken)| taken as u64)
}
