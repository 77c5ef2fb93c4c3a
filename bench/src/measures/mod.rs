//! The measures: one file and one line each.

use crate::measure::Measure;

macro_rules! measures {
    ($($name:ident)*) => {
        $(mod $name;)*
        pub const ALL: &[&Measure] = &[$(&$name::MEASURE),*];
    };
}

measures! {
    messages_skip
    messages_collect
    one_token
    tuple_of_2
    tuple_of_4
    tuple_of_8
    tuple_of_tuples
    many_in_many
    many_in_many_in_many
    letters_ascii
    letters_greek
    digits_collect
    attempt_digits
    lines_and_columns
    then_of_3
    keywords_tuple
    keywords_array
    keywords_slice
    separated_skip
    separated_collect
    counted_frames
    prefixed_frames
    chained_sum
    marked_text
    words
    lines_of_16
    lines_of_80
    lines_of_4096
    decoded_frames
    decoded_settings
    json_numbers
    json_texts
    json_deep
    json_wide
    grammar
    grammar_easy
}
