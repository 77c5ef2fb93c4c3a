//! A choice over eight keywords, as an array. The result is how many bytes it took.

use crate::measure::{Measure, REFUSED};
use crate::{by_combine, inputs, keywords};

pub const MEASURE: Measure = Measure {
    name: "keywords_array",
    what: "`skip_many(choice(..))` over an array of eight keywords, each `attempt(..)` of its letters",
    input: inputs::keywords,
    pieces: &[0, 4096],
    sides: &[("hand", keywords::hand), ("combine", combine), ("nom", keywords::nom)],
};

fn combine(bytes: &[u8], piece: usize) -> u64 {
    use combine::{choice, skip_many};
    if piece != 0 {
        return keywords::combine_in_pieces(bytes, piece);
    }
    let choice = choice(std::array::from_fn::<_, 8, _>(keywords::keyword_at));
    by_combine::whole(skip_many(choice), bytes).map_or(REFUSED, |((), taken)| taken as u64)
}
