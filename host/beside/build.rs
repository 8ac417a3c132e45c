//! Finds the Rust sources and tells the compiler where they are.
//! The sources are compiled where they lie; only their paths are written down.
//! The library's scan is written down too, as the Rust that it is without its contracts, with a call that counts.

use std::path::{Path, PathBuf};
use std::process::ExitCode;
use std::{env, fs};

const RUST_FILES: [(&str, &str); 7] = [
    ("general", "manager/phase_factory/list_k_opt/general.rs"),
    ("kernel", "manager/phase_factory/list_k_opt/kernel.rs"),
    ("k_opt_reconnection", "heuristic/move/k_opt_reconnection.rs"),
    ("k_opt", "heuristic/move/k_opt.rs"),
    ("metadata", "heuristic/move/metadata.rs"),
    ("k_opt_moves", "heuristic/move/list_kernel/k_opt.rs"),
    (
        "nearby_state",
        "heuristic/selector/list_kernel/k_opt/nearby_state.rs",
    ),
];

/// Names the folder in which the Rust lies.
const SOURCES: &str = "MITTENSCHIST_RUST_SRC";

/// Included as it stands in a module that has the names it uses, as the Rust does.
const INCLUDED: (&str, &str) = ("iter", "heuristic/selector/move_selector/iter.rs");

/// The crate of polishing: the scan is this one and those below it.
const POLISHING: &str = "polishing";

/// Where the scan counts cut sets passed over, among those of a stretch and a whole stretch, and what is put before it.
const PASSED: [(&str, &str); 2] = [
    (
        "let reached = examined + over;",
        "crate::share::count(hit - cuts[last], hit <= round.route.len());",
    ),
    (
        "cuts[last] = stops;",
        "crate::share::count(stops + 1 - cuts[last], false);",
    ),
];

/// How the library and Rust begin the printing of a value.
const FORMATTER: (&str, &str) = (
    "fn fmt<W: fmt::Write>(&self, f: &mut fmt::Formatter<W>)",
    "fn fmt(&self, f: &mut fmt::Formatter<'_>)",
);

fn main() -> ExitCode {
    match prepare() {
        Ok(()) => ExitCode::SUCCESS,
        Err(message) => {
            eprintln!("{message}");
            ExitCode::FAILURE
        }
    }
}

fn prepare() -> Result<(), String> {
    let beside = PathBuf::from(variable("CARGO_MANIFEST_DIR")?);
    println!("cargo:rerun-if-changed=build.rs");
    name_sources(&beside.join("../../../shared/docs/src"))?;
    write_scan(&beside.join("../.."))
}

fn variable(name: &str) -> Result<String, String> {
    env::var(name).map_err(|fault| format!("{name}: {fault}"))
}

/// The folder that an environment variable names, if it is set.
fn named_folder(name: &str) -> Option<PathBuf> {
    println!("cargo:rerun-if-env-changed={name}");
    env::var_os(name).map(PathBuf::from)
}

/// Writes, for each Rust file, a declaration of it as a module.
fn name_sources(usual: &Path) -> Result<(), String> {
    let folder = named_folder(SOURCES).unwrap_or_else(|| usual.to_path_buf());
    let sources = folder.join("crates/solverforge-solver/src");
    let found = |file: &str| {
        found(&sources.join(file))
            .map_err(|fault| format!("the Rust is not whole: {fault}; {SOURCES} names its folder"))
    };
    for (module, file) in RUST_FILES {
        let path = found(file)?;
        let allowed = "dead_code, unused_imports";
        let declaration =
            format!("#[path = {path:?}]\n#[allow({allowed})]\npub(crate) mod {module};\n");
        write_down(module, &declaration)?;
    }
    let path = found(INCLUDED.1)?;
    write_down(INCLUDED.0, &format!("include!({path:?});\n"))
}

fn found(path: &Path) -> Result<PathBuf, String> {
    let path = fs::canonicalize(path).map_err(|fault| format!("{}: {fault}", path.display()))?;
    println!("cargo:rerun-if-changed={}", path.display());
    Ok(path)
}

fn write_down(module: &str, declaration: &str) -> Result<(), String> {
    let out = PathBuf::from(variable("OUT_DIR")?);
    fs::write(out.join(format!("{module}.rs")), declaration)
        .map_err(|fault| format!("{module}: {fault}"))
}

/// The scan's crates as modules.
fn write_scan(root: &Path) -> Result<(), String> {
    let mut modules = String::new();
    for name in crates_below(&read(&root.join("crates.txt"))?) {
        let source = read(&root.join("crates").join(&name).join("src/lib.rt"))?;
        modules += &format!("pub mod {name} {{\nuse super::*;\n{}}}\n", code_of(&source));
    }
    for (passed, counted) in PASSED {
        if modules.matches(passed).count() != 1 {
            return Err(format!("the scan has no single line {passed:?}"));
        }
        modules = modules.replace(passed, &format!("{counted} {passed}"));
    }
    write_down("scan", &modules)
}

/// The source without its contracts and what is for them alone; what it uses stands beside it, but for the standard library.
fn code_of(source: &str) -> String {
    let contract = [
        "ghost ",
        "requires ",
        "ensures ",
        "#![tactic",
        "#[tactic",
        "#[derive(Drop)]",
    ];
    let kept = source.lines().filter(|line| {
        !contract
            .iter()
            .any(|start| line.trim_start().starts_with(start))
    });
    kept.map(|line| match line.strip_prefix("use ") {
        Some(path) if !path.starts_with("std::") => format!("use super::{path}\n"),
        _ => format!("{}\n", line.replace(FORMATTER.0, FORMATTER.1)),
    })
    .collect()
}

fn read(path: &Path) -> Result<String, String> {
    fs::read_to_string(found(path)?).map_err(|fault| format!("{}: {fault}", path.display()))
}

/// Polishing and the crates that it needs, from the list that names each crate and those it uses.
fn crates_below(list: &str) -> Vec<String> {
    let lines = list.lines().filter(|line| !line.starts_with('#'));
    let listed: Vec<_> = lines.filter_map(|line| line.split_once(':')).collect();
    let mut needed = vec![POLISHING];
    let mut at = 0;
    while at < needed.len() {
        let own = listed.iter().filter(|(name, _)| *name == needed[at]);
        let uses: Vec<_> = own.flat_map(|(_, uses)| uses.split_whitespace()).collect();
        for name in uses {
            if !needed.contains(&name) {
                needed.push(name);
            }
        }
        at += 1;
    }
    needed.into_iter().map(str::to_string).collect()
}
