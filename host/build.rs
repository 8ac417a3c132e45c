//! Finds the library's archive, or builds it, and tells the linker where it is.

use std::path::{Path, PathBuf};
use std::process::{Command, ExitCode};
use std::time::SystemTime;
use std::{env, fs};

/// Names the folder of an archive that is built already.
const VARIABLE: &str = "MITTENSCHIST_LIB";
const ARCHIVE: &str = "libmittenschist.a";
const BUILD: &str = "bash tools/build-archive";

fn main() -> ExitCode {
    match link() {
        Ok(()) => ExitCode::SUCCESS,
        Err(message) => {
            eprintln!("{message}");
            ExitCode::FAILURE
        }
    }
}

fn link() -> Result<(), String> {
    println!("cargo:rerun-if-changed=build.rs");
    println!("cargo:rerun-if-env-changed={VARIABLE}");
    let (place, named) = match env::var_os(VARIABLE) {
        Some(folder) => (PathBuf::from(folder), format!("{VARIABLE} is wrong: ")),
        None => (built()?, String::new()),
    };
    let archive = place.join(ARCHIVE);
    let archive = fs::canonicalize(&archive)
        .map_err(|fault| format!("{named}{}: {fault}", archive.display()))?;
    let place = archive.parent().unwrap_or(&place);
    println!("cargo:rerun-if-changed={}", archive.display());
    println!("cargo:rustc-link-search=native={}", place.display());
    println!("cargo:rustc-link-lib=static=mittenschist");
    // The tests link it with C programs.
    println!("cargo:rustc-env=MITTENSCHIST_ARCHIVE={}", archive.display());
    Ok(())
}

/// The folder of the repository's own archive, built if there is none or its code is newer.
fn built() -> Result<PathBuf, String> {
    let host = env::var("CARGO_MANIFEST_DIR").map_err(|fault| fault.to_string())?;
    let root = Path::new(&host).join("..");
    let crates = root.join("crates");
    println!("cargo:rerun-if-changed={}", crates.display());
    let place = root.join("target/staticlib");
    let made = changed(&place.join(ARCHIVE));
    if made.is_none() || made < newest_source(&crates) {
        build_archive(&root)?;
    }
    Ok(place)
}

fn changed(path: &Path) -> Option<SystemTime> {
    fs::metadata(path).ok()?.modified().ok()
}

fn newest_source(crates: &Path) -> Option<SystemTime> {
    let sources = entries(crates)
        .into_iter()
        .flat_map(|folder| entries(&folder.join("src")));
    sources.filter_map(|file| changed(&file)).max()
}

fn entries(folder: &Path) -> Vec<PathBuf> {
    let Ok(found) = fs::read_dir(folder) else {
        return Vec::new();
    };
    found.flatten().map(|entry| entry.path()).collect()
}

/// Cargo shows nothing of this while it runs, some minutes: hence the words after it.
fn build_archive(root: &Path) -> Result<(), String> {
    let run = Command::new("bash")
        .arg("tools/build-archive")
        .current_dir(root)
        .output();
    let advice = format!(
        "build the archive first, by `{BUILD}`, which shows what it is doing and takes some minutes; \
         or name the folder of one in {VARIABLE}"
    );
    let output = run.map_err(|fault| format!("{BUILD}: {fault}; {advice}"))?;
    if output.status.success() {
        println!("cargo:warning={ARCHIVE} was missing or older than its source: `{BUILD}` was run");
        return Ok(());
    }
    let said = [output.stdout, output.stderr].concat();
    let said = String::from_utf8_lossy(&said);
    Err(format!("{said}\n{BUILD} failed; {advice}"))
}
