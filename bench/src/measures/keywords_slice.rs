//! A choice over eight keywords, as a slice. The result is how many bytes it took.

use crate::measure::{Measure, REFUSED};
use crate::{by_combine, inputs, keywords};

pub const MEASURE: Measure = Measure {
    name: "keywords_slice",
    what: "`skip_many(choice(..))` over a slice of eight keywords, each `attempt(..)` of its letters",
    input: inputs::keywords,
    pieces: &[0, 4096],
    sides: &[("hand", keywords::hand), ("combine", combine), ("nom", keywords::nom)],
};

fn combine(bytes: &[u8], piece: usize) -> u64 {
    use combine::{choice, skip_many};
    if piece != 0 {
        return keywords::combine_in_pieces(bytes, piece);
    }
    let mut words = std::array::from_fn::<_, 8, _>(keywords::keyword_at);
    let choice = choice(&mut words[..]);
    by_combine::whole(skip_many(choice), bytes).map_or(REFUSED, |((), taken)| taken as u64)
}
