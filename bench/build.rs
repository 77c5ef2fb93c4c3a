//! Links our static library, if `COMBINE_BENCH_LIBRARY` names it, and its allocator, `COMBINE_BENCH_HEAP`;
//! writes `ours.rs`, a call for each of its exports `combine_bench_NAME`.

use std::fmt::Write;
use std::path::Path;
use std::process::Command;

fn main() {
    println!("cargo:rerun-if-env-changed=COMBINE_BENCH_LIBRARY");
    println!("cargo:rerun-if-env-changed=COMBINE_BENCH_HEAP");
    let mut names = Vec::new();
    if let Ok(library) = std::env::var("COMBINE_BENCH_LIBRARY") {
        link(&library);
        names = exports(&library);
        link(&std::env::var("COMBINE_BENCH_HEAP").expect("COMBINE_BENCH_HEAP names the library that allocates"));
    }
    names.sort();
    let out = std::env::var("OUT_DIR").unwrap();
    std::fs::write(Path::new(&out).join("ours.rs"), calls(&names)).unwrap();
}

fn link(library: &str) {
    let path = Path::new(library).canonicalize().unwrap_or_else(|_| panic!("there is no {library}"));
    let name = path.file_name().unwrap().to_str().unwrap();
    let name = name.strip_prefix("lib").and_then(|it| it.strip_suffix(".a")).expect("a file libNAME.a");
    println!("cargo:rerun-if-changed={}", path.display());
    println!("cargo:rustc-link-search=native={}", path.parent().unwrap().display());
    println!("cargo:rustc-link-lib=static={name}");
}

/// Returns the names of the library's exports, without `combine_bench_`.
fn exports(library: &str) -> Vec<String> {
    let found = Command::new("nm").args(["-g", "--defined-only", library]).output().expect("nm, of binutils");
    let text = String::from_utf8(found.stdout).unwrap();
    text.lines()
        .filter_map(|line| line.split_whitespace().nth(2)?.strip_prefix("combine_bench_"))
        .map(String::from)
        .collect()
}

fn calls(names: &[String]) -> String {
    let mut text = String::new();
    if !names.is_empty() {
        text += "extern \"C\" {\n";
        for name in names {
            writeln!(text, "    fn combine_bench_{name}(bytes: *const u8, length: usize, piece: usize) -> u64;")
                .unwrap();
        }
        text += "}\n";
    }
    writeln!(text, "pub const NAMES: &[&str] = &{names:?};").unwrap();
    text += "const CALLS: &[Call] = &[\n";
    for name in names {
        writeln!(text, "    |bytes, piece| unsafe {{ combine_bench_{name}(bytes.as_ptr(), bytes.len(), piece) }},")
            .unwrap();
    }
    text + "];\n"
}
