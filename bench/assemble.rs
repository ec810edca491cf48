//! Assembles the published Rust sources into OUT_DIR. They are not part of this repository: FAIRCHILD_SRC names the folder that
//! holds them, crates/fairchild-core/src/X.rs below it. The package `with_port` has exp, ln, ln_1p and powf redirected to
//! the port's; nothing else is changed. PORT_LIBS names the folder of libelementary.a.
use std::env;
use std::fs;
use std::path::{Path, PathBuf};

fn source(folder: &Path, name: &str) -> String {
    let file = folder.join(format!("crates/fairchild-core/src/{name}.rs"));
    println!("cargo:rerun-if-changed={}", file.display());
    fs::read_to_string(&file).unwrap_or_else(|e| panic!("{}: {e}", file.display()))
}

/// Each item whose first line is `start`, with the attributes above it, up to its closing brace.
fn items(text: &str, start: &str) -> String {
    let lines: Vec<&str> = text.lines().collect();
    let mut found = String::new();
    for (at, line) in lines.iter().enumerate().filter(|(_, line)| **line == start) {
        let above = |l: &&str| l.trim_start().starts_with("///") || l.trim_start().starts_with("#[");
        let first = at - lines[..at].iter().rev().take_while(|l| above(l)).count();
        let indent: String = line.chars().take_while(|c| *c == ' ').collect();
        let close = format!("{indent}}}");
        let last = if line.ends_with(';') { at } else { (at..).find(|i| lines[*i] == close).unwrap() };
        found += &(lines[first..=last].join("\n") + "\n\n");
    }
    assert!(!found.is_empty(), "no `{start}`");
    found
}

fn redirect(text: String) -> String {
    if env::var("CARGO_PKG_NAME").unwrap() != "with_port" {
        return text;
    }
    let names = [(".exp()", ".port_exp()"), (".ln()", ".port_ln()"), (".ln_1p()", ".port_ln_1p()"), (".powf(", ".port_pow(")];
    names.iter().fold(text, |t, (from, to)| t.replace(from, to)) + "\nuse crate::port::PortMath as _;\n"
}

fn matrix(text: &str) -> String {
    let mut out = String::from("use std::sync::Arc;\n\nuse crate::device::NodeId;\n\n");
    out += &items(text, "pub struct Pattern {");
    out += &items(text, "pub struct Cell {");
    out += "impl Pattern {\n";
    out += &items(text, "    pub fn id(&self) -> u64 {");
    out += &items(text, "    pub fn cell(&self, row: NodeId, col: NodeId) -> Option<Cell> {");
    // The builder is private to the file.
    out += "    pub fn of_columns(cols: &[Vec<u32>]) -> Pattern {\n        let mut b = PatternBuilder::new(cols.len());\n        for (i, row) in cols.iter().enumerate() {\n            for &j in row {\n                b.touch(i, j as usize);\n            }\n        }\n        b.finish()\n    }\n}\n";
    for start in [
        "struct PatternBuilder {",
        "impl PatternBuilder {",
        "pub struct SparseRow {",
        "static ZERO: f64 = 0.0;",
        "impl std::ops::Index<usize> for SparseRow {",
        "impl std::ops::IndexMut<usize> for SparseRow {",
        "impl SparseRow {",
        "pub struct MnaMatrix {",
        "impl MnaMatrix {",
    ] {
        out += &items(text, start);
    }
    out
}

fn main() {
    println!("cargo:rerun-if-env-changed=FAIRCHILD_SRC");
    println!("cargo:rerun-if-env-changed=PORT_LIBS");
    let folder = PathBuf::from(env::var("FAIRCHILD_SRC").expect("set FAIRCHILD_SRC to the folder of the sources"));
    let out = PathBuf::from(env::var("OUT_DIR").unwrap());
    let reactive = source(&folder, "reactive");
    let charges = ["pub fn charge_current(", "pub struct ChargeHistory {", "impl ChargeHistory {", "pub fn conductance("]
        .map(|start| items(&reactive, start))
        .concat();
    let files = [
        ("device", source(&folder, "device")),
        ("unmodelled", source(&folder, "unmodelled")),
        ("temperature", redirect(source(&folder, "temperature"))),
        ("tran", items(&source(&folder, "tran"), "pub enum IntegratorMode {")),
        ("reactive", format!("use crate::device::ReactiveKind;\nuse crate::tran::IntegratorMode;\n\n{charges}")),
        ("mna", matrix(&source(&folder, "mna"))),
    ];
    let mut generated = String::new();
    for (name, text) in files {
        fs::write(out.join(format!("{name}.rs")), text).unwrap();
        generated += &format!("#[allow(dead_code, unused)]\n#[path = {:?}]\npub mod {name};\n", out.join(format!("{name}.rs")));
    }
    fs::write(out.join("mosfet1.rs"), redirect(source(&folder, "models/mosfet1"))).unwrap();
    generated += &format!("pub mod models {{\n#[allow(dead_code, unused)]\n#[path = {:?}]\npub mod mosfet1;\n}}\n", out.join("mosfet1.rs"));
    fs::write(out.join("generated.rs"), generated).unwrap();
    if env::var("CARGO_PKG_NAME").unwrap() == "with_port" {
        let libs = env::var("PORT_LIBS").expect("set PORT_LIBS to the folder of libelementary.a");
        println!("cargo:rerun-if-changed={libs}/libelementary.a");
        println!("cargo:rustc-link-search=native={libs}");
        println!("cargo:rustc-link-lib=static=elementary");
    }
}
