//! Ours: the static library that `rt lib` makes of the crate `bench`.
//!
//! For the measure NAME it exports a function:
//!
//!     uint64_t combine_bench_NAME(const uint8_t *bytes, size_t length, size_t piece);
//!
//! in Rattle
//!
//!     #[unsafe(no_mangle)]
//!     pub extern "C" fn combine_bench_NAME(alloc: Global, bytes: &[u8], piece: usize) -> u64
//!
//! It parses the bytes, whole where `piece` is 0 (`parse` over `&[u8]`), else through a `Session` that is fed pieces of
//! `piece` bytes and then the end. Messages are decoded by a `Decoder` that is fed the pieces; a name with
//! `_by_session` behind it is of a loop by hand over a session of ours, which begins again behind each message, and one
//! with `_by_session_by_piece` of such a loop that collects the messages of a piece.
//!
//! It answers what the measure's file says, `REFUSED` where the parser refuses, and `FAULT` where a fault came up.
//! Nothing that it allocates passes the border. `build.rs` finds what the library exports; a measure that it has not
//! yet is left out.

use crate::measure::Call;

include!(concat!(env!("OUT_DIR"), "/ours.rs"));

/// The sides of ours, by what stands behind the name of a measure in that of an export; ours itself comes last.
const SIDES: &[(&str, &str)] =
    &[("_by_session", "session"), ("_by_session_by_piece", "session by piece"), ("", "ours")];

/// The sides of ours that a measure has, by name.
pub fn sides(measure: &str) -> Vec<(&'static str, Call)> {
    let find = |behind: &str| NAMES.iter().position(|name| name.strip_prefix(measure) == Some(behind));
    SIDES.iter().filter_map(|(behind, side)| Some((*side, CALLS[find(behind)?]))).collect()
}

/// The measure that an export is of.
pub fn measure_of(name: &str) -> &str {
    name.split_once("_by_session").map_or(name, |(measure, _)| measure)
}
