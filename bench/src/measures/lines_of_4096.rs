//! Lines of 4,096 bytes, each found by a search for `\r\n`. The result is how many bytes they take.

use crate::measure::Measure;
use crate::{inputs, lines};

pub const MEASURE: Measure = Measure {
    name: "lines_of_4096",
    what: "`skip_many((take_until_bytes(b\"\\r\\n\"), take(2)))` over lines of 4,096 bytes",
    input: inputs::lines_of_4096,
    pieces: &[0],
    sides: &[("hand", lines::hand), ("combine", lines::combine), ("nom", lines::nom)],
};
