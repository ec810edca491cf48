//! Assembles the published Rust in OUT_DIR. Nothing of it stands in this repository.
//!
//! FAIRCHILD_SRC names the folder that holds `crates/fairchild-core/src`. PORT_LIB names the port's static library of elementary
//! functions (`tools/archives.sh elementary`).
//!
//! device.rs and unmodelled.rs are taken whole. mosfet1.rs and temperature.rs are taken whole, with every call of `exp`, `ln`,
//! `ln_1p` and `powf` turned to the port. Of tran.rs, reactive.rs and mna.rs, whose other parts need files that were not published,
//! the items that `Mosfet1` reaches are taken, each unchanged.

use std::path::{Path, PathBuf};
use std::{env, fs};

/// Calls that are turned to the port, with what stands in their place.
const TURNED: [(&str, &str); 4] = [
    (".exp()", ".port_exp()"),
    (".ln()", ".port_ln()"),
    (".ln_1p()", ".port_ln_1p()"),
    (".powf(", ".port_powf("),
];

/// Calls that would go past the port.
const LEFT: [&str; 9] = [
    ".exp(", ".exp2(", ".exp_m1(", ".ln(", ".ln_1p(", ".log(", ".log10(", ".powf(", ".powi(",
];

fn folder(variable: &str) -> PathBuf {
    println!("cargo:rerun-if-env-changed={variable}");
    let path = env::var(variable).unwrap_or_else(|_| panic!("set {variable}: see build.rs"));
    fs::canonicalize(&path).unwrap_or_else(|e| panic!("{variable}: {path}: {e}"))
}

fn published(name: &str) -> String {
    let path = folder("FAIRCHILD_SRC").join("crates/fairchild-core/src").join(name);
    println!("cargo:rerun-if-changed={}", path.display());
    fs::read_to_string(&path).unwrap_or_else(|e| panic!("{}: {e}", path.display()))
}

/// The item that begins with the line `head`, with its comments and attributes, up to the brace that closes it.
fn item<'a>(text: &'a str, head: &str) -> &'a str {
    let at = text
        .match_indices(head)
        .map(|(at, _)| at)
        .find(|at| (*at == 0 || text[..*at].ends_with('\n')) && text[at + head.len()..].starts_with('\n'))
        .unwrap_or_else(|| panic!("no item `{head}`"));
    let mut start = at;
    while let Some(line) = text[..start].strip_suffix('\n').map(|t| &t[t.rfind('\n').map_or(0, |i| i + 1)..]) {
        let line_start = start - line.len() - 1;
        if !line.trim_start().starts_with("///") && !line.trim_start().starts_with("#[") {
            break;
        }
        start = line_start;
    }
    if head.ends_with(';') {
        return &text[start..at + head.len() + 1];
    }
    let indent = &head[..head.len() - head.trim_start().len()];
    let close = format!("\n{indent}}}\n");
    let end = at + text[at..].find(&close).unwrap_or_else(|| panic!("no end of `{head}`"));
    &text[start..end + close.len()]
}


fn turned(name: &str) -> String {
    let mut text = published(name);
    for (from, to) in TURNED {
        text = text.replace(from, to);
    }
    for call in LEFT {
        assert!(!text.contains(call), "{name} calls {call}");
    }
    text + "\nuse crate::arithmetic::PortFunctions as _;\n"
}

/// The fields of `Mosfet1` in the order of their declaration.
fn fields(mosfet1: &str) -> Vec<&str> {
    item(mosfet1, "pub struct Mosfet1 {")
        .lines()
        .filter_map(|line| line.strip_prefix("    ")?.split_once(": "))
        .map(|(name, _)| name)
        .filter(|name| name.bytes().all(|b| b == b'_' || b.is_ascii_alphanumeric()))
        .collect()
}

/// `state`, `copied` and `threshold`, made of the published text so that no field and no operation is written twice.
fn views(mosfet1: &str) -> String {
    let mut rows = String::new();
    for name in fields(mosfet1).into_iter().filter(|name| *name != "jac_cells") {
        rows += &format!("        (\"{name}\", self.{name}.written()),\n");
    }
    let copies: String = fields(mosfet1).iter().map(|name| format!("            {name}: self.{name},\n")).collect();
    let eval = item(mosfet1, "    fn eval(&mut self, x: &[f64], flags: EvalFlags, ctx: &SimContext) {");
    let first = eval.find("        let phi_m_vbs = ").expect("the threshold's first line");
    let last = eval.find("        let vth = ").expect("the threshold's last line");
    let end = last + eval[last..].find('\n').unwrap();
    let lines = &eval[first..end];
    assert!(lines.lines().count() < 5, "the threshold has more lines than it had");
    format!(
        "impl Mosfet1 {{
    pub fn state(&self) -> Vec<(&'static str, String)> {{
        vec![
{rows}        ]
    }}

    pub fn copied(&self) -> Mosfet1 {{
        Mosfet1 {{
{copies}        }}
    }}

    pub fn threshold(&self, vbs_eff: f64) -> f64 {{
        let pol = self.polarity;
{lines}
        vth
    }}
}}
"
    )
}

/// The file `inside/NAME` of this harness as a module within the published one, where private fields are in sight.
fn with_inside(text: String, name: &str) -> String {
    let path = PathBuf::from(env::var("CARGO_MANIFEST_DIR").unwrap()).join("src/inside").join(name);
    println!("cargo:rerun-if-changed={}", path.display());
    format!("{text}\n#[path = {path:?}]\npub mod inside;\n")
}

fn reactive() -> String {
    let text = published("reactive.rs");
    let heads = ["pub fn charge_current(", "pub struct ChargeHistory {", "impl ChargeHistory {", "pub fn conductance("];
    let items: String = heads.iter().map(|head| item(&text, head)).collect();
    "use crate::device::ReactiveKind;\nuse crate::tran::IntegratorMode;\n".to_string() + &items
}

fn mna() -> String {
    let text = published("mna.rs");
    let row = "impl SparseRow {";
    let heads = [
        "pub struct Pattern {",
        "pub struct Cell {",
        "struct PatternBuilder {",
        "impl PatternBuilder {",
        "pub struct SparseRow {",
        "static ZERO: f64 = 0.0;",
        "impl std::ops::Index<usize> for SparseRow {",
        "impl std::ops::IndexMut<usize> for SparseRow {",
        "pub struct MnaMatrix {",
        "impl MnaMatrix {",
    ];
    let mut made = "use crate::device::NodeId;\nuse std::sync::Arc;\n".to_string();
    made.extend(heads.iter().map(|head| item(&text, head)));
    let first = item(&text, row);
    let after = text.find(first).unwrap() + first.len();
    made += first;
    made += item(&text[after..], row);
    let id = item(&text, "    pub fn id(&self) -> u64 {");
    let cell = item(&text, "    pub fn cell(&self, row: NodeId, col: NodeId) -> Option<Cell> {");
    made + &format!("impl Pattern {{\n{id}\n{cell}}}\n")
}

fn write(out: &Path, name: &str, text: &str) -> String {
    let path = out.join(name);
    fs::write(&path, text).unwrap();
    format!("#[allow(dead_code, unused_imports)]\n#[path = {path:?}]\npub mod {};\n", name.trim_end_matches(".rs"))
}

fn main() {
    println!("cargo:rerun-if-changed=build.rs");
    let out = PathBuf::from(env::var("OUT_DIR").unwrap());
    let mosfet1 = published("models/mosfet1.rs");
    fs::write(out.join("views.rs"), views(&mosfet1)).unwrap();
    let tran = published("tran.rs");
    let modules = [
        write(&out, "device.rs", &published("device.rs")),
        write(&out, "unmodelled.rs", &published("unmodelled.rs")),
        write(&out, "temperature.rs", &turned("temperature.rs")),
        write(&out, "tran.rs", item(&tran, "pub enum IntegratorMode {")),
        write(&out, "reactive.rs", &with_inside(reactive(), "reactive.rs")),
        write(&out, "mna.rs", &with_inside(mna(), "mna.rs")),
        write(&out, "mosfet1.rs", &with_inside(turned("models/mosfet1.rs"), "mosfet1.rs")),
    ];
    fs::write(out.join("modules.rs"), modules.concat()).unwrap();
    let library = folder("PORT_LIB");
    println!("cargo:rerun-if-changed={}", library.display());
    println!("cargo:rustc-link-arg-bins={}", library.display());
}
