//! Writes a call for each line of diff/parsers.list and of diff/texts.list.

use std::path::Path;

fn main() {
    write("parsers", |line| {
        let letter = if line.contains("string(") { "char" } else { "u8" };
        format!("Some(run::<{letter}, _>(parser!({line}), tokens, ends))")
    });
    write("texts", |line| format!("Some(said(worded!({line}), text))"));
}

/// Writes a match over the lines of a list.
fn write(name: &str, call: impl Fn(&str) -> String) {
    let list = format!("../{name}.list");
    println!("cargo:rerun-if-changed={list}");
    let lines = std::fs::read_to_string(&list).expect(&list);
    let mut text = String::from("match parser {\n");
    for line in lines.lines().filter(|line| !line.is_empty() && !line.starts_with('#')) {
        text += &format!("    {line:?} => {},\n", call(line));
    }
    text += "    _ => None,\n}\n";
    let out = std::env::var("OUT_DIR").unwrap();
    std::fs::write(Path::new(&out).join(name).with_extension("rs"), text).unwrap();
}
