//! Lines of 80 bytes, each found by a search for `\r\n`. The result is how many bytes they take.

use crate::measure::Measure;
use crate::{inputs, lines};

pub const MEASURE: Measure = Measure {
    name: "lines_of_80",
    what: "`skip_many((take_until_bytes(b\"\\r\\n\"), take(2)))` over lines of 80 bytes",
    input: inputs::lines_of_80,
    pieces: &[0],
    sides: &[("hand", lines::hand), ("combine", lines::combine), ("nom", lines::nom)],
};
