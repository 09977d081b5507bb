//! The text of the proved crates as Rust: the contracts and what asks for a tactic are left out, and nothing else changes but the
//! paths of `use`.

use std::path::Path;

/// Writes the crates `lattice`, `passes`, `codec` and `levels` and the module `operations` of `varmintfoil`, each as a module of
/// `crate::same`.
pub fn write(crates: &Path, to: &Path) {
    let libraries = ["lattice", "passes", "codec", "levels"].map(|name| (name, module(crates, name, "lib", 0)));
    let operations = ("operations", module(crates, "varmintfoil", "operations", 0));
    let modules = libraries.into_iter().chain([operations]);
    let text: String = modules.map(|(name, text)| format!("pub mod {name} {{\n{text}}}\n")).collect();
    std::fs::write(to, text).unwrap();
}

/// A source file of a crate with the files that it declares as modules; `depth` is that of the file below the crate's root.
fn module(crates: &Path, name: &str, file: &str, depth: usize) -> String {
    let path = crates.join(name).join("src").join(format!("{file}.rt"));
    println!("cargo:rerun-if-changed={}", path.display());
    let text = std::fs::read_to_string(&path).unwrap_or_else(|fault| panic!("{}: {fault}", path.display()));
    let mut rust = String::new();
    for line in without_contracts(&text) {
        let code = line.trim_start();
        let plain = code.trim_start_matches("pub(crate) ").trim_start_matches("pub ");
        if let Some(inner) = plain.strip_prefix("mod ").and_then(|rest| rest.strip_suffix(';')) {
            let below = if depth == 0 && file == "lib" { inner.to_string() } else { format!("{file}/{inner}") };
            let head = code.trim_end_matches(';');
            rust += &format!("{head} {{\n{}}}\n", module(crates, name, &below, depth + 1));
        } else if let Some(used) = plain.strip_prefix("use ") {
            rust += &format!("{}{}\n", &code[..code.len() - used.len()], path_in_rust(name, used));
        } else {
            rust += &format!("{line}\n");
        }
    }
    rust
}

/// The lines of a source file without what speaks to the prover: ghost items, the clauses of contracts, and tactics.
fn without_contracts(text: &str) -> Vec<&str> {
    let mut lines = Vec::new();
    let mut ghost = false;
    let mut depth = 0;
    for line in text.lines() {
        let code = line.trim_start();
        let clause = code.starts_with("requires ") || code.starts_with("ensures ");
        if ghost || code.starts_with("ghost ") {
            ghost = !code.ends_with(';');
        } else if depth > 0 || clause {
            depth += line.matches('{').count();
            depth -= line.matches('}').count();
        } else if !code.starts_with("#![tactic(") && !code.starts_with("#[tactic(") {
            lines.push(line);
        }
    }
    lines
}

/// The path of a `use` in a crate.
fn path_in_rust(name: &str, used: &str) -> String {
    match used.split_once("::") {
        Some(("crate", rest)) => format!("crate::same::{name}::{rest}"),
        Some(("lattice" | "passes" | "codec" | "levels", _)) => format!("crate::same::{used}"),
        _ => used.to_string(),
    }
}
