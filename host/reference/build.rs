//! Makes a copy of the head for each deliberate mistake, for `mirror --wrong`.

use std::fmt::Write;
use std::path::Path;
use std::{env, fs};

mod mistakes;
use mistakes::{Mistake, ELSEWHERE, MISTAKES};

const MODULES: [&str; 8] = [
    "entry", "frame", "head", "line", "sdo", "settings", "upload", "wire",
];

fn main() {
    println!("cargo:rerun-if-changed=src");
    println!("cargo:rerun-if-changed=mistakes.rs");
    let mut text = String::new();
    for (at, mistake) in MISTAKES.iter().enumerate() {
        text += &wrong_head(at + 1, mistake);
    }
    text += &choice();
    let directory = env::var("OUT_DIR").expect("cargo sets OUT_DIR");
    fs::write(Path::new(&directory).join("mistakes.rs"), text).expect("OUT_DIR can be written");
}

fn wrong_head(number: usize, mistake: &Mistake) -> String {
    let mut text = format!("#[allow(warnings, clippy::all)]\nmod wrong_{number} {{\n");
    for module in MODULES {
        let source = fs::read_to_string(format!("src/{module}.rs")).expect("a module's source");
        let source = alter(&source, module, mistake);
        writeln!(text, "pub mod {module} {{\n{source}\n}}").expect("a string takes text");
    }
    text + "}\n"
}

fn alter(source: &str, module: &str, (name, place, from, to): &Mistake) -> String {
    let mut altered = source.to_string();
    if module == *place {
        for (from, to) in from.split(ELSEWHERE).zip(to.split(ELSEWHERE)) {
            assert_eq!(source.matches(from).count(), 1, "where to make: {name}");
            altered = altered.replace(from, to);
        }
    }
    altered
}

/// The names, and the function that picks a wrong head by its number.
fn choice() -> String {
    let names: Vec<_> = MISTAKES.iter().map(|mistake| mistake.0).collect();
    let mut text = format!("const MISTAKES: &[&str] = &{names:?};\n");
    text += "fn wrong(number: usize) -> Option<Responder> {\n    Some(match number {\n";
    for number in 1..=MISTAKES.len() {
        writeln!(text, "        {number} => responder!(wrong_{number}),").expect("a string");
    }
    text + "        _ => return None,\n    })\n}\n"
}
