//! The programs as they are built, run on an input.

use crate::trial::Reply;
use std::env;
use std::fmt::{Formatter, Result as Written};
use std::io::{ErrorKind, Write};
use std::path::{Path, PathBuf};
use std::process::{Command, Stdio};

/// A longer input is printed in part; family and index run it again.
const MOST_SHOWN: usize = 4000;

/// The program that a variable names, if it is there; else the reason why it is not compared.
pub fn named(variable: &str, crate_name: &str) -> Result<PathBuf, String> {
    let Some(path) = env::var_os(variable).map(PathBuf::from) else {
        return Err(format!("{variable} does not name the program"));
    };
    if path.is_file() {
        return Ok(path);
    }
    Err(format!(
        "no {}; rt run in crates/{crate_name} builds it",
        path.display()
    ))
}

/// What a program makes of an input, as a reply.
pub fn given(program: Result<PathBuf, String>, text: &[u8]) -> Result<Reply, String> {
    program
        .and_then(|program| run(&program, text))
        .map(|output| reply(&output))
        .map_err(|fault| format!("the program: {fault}\n"))
}

/// What a program writes; it must end well and say nothing else.
fn run(program: &Path, text: &[u8]) -> Result<Vec<u8>, String> {
    let mut child = Command::new(program)
        .stdin(Stdio::piped())
        .stdout(Stdio::piped())
        .stderr(Stdio::piped())
        .spawn()
        .map_err(|fault| fault.to_string())?;
    let mut input = child.stdin.take().expect("a pipe");
    // It need not read what goes beyond the longest text.
    match input.write_all(text) {
        Err(fault) if fault.kind() != ErrorKind::BrokenPipe => return Err(fault.to_string()),
        _ => drop(input),
    }
    let output = child
        .wait_with_output()
        .map_err(|fault| fault.to_string())?;
    if output.status.success() && output.stderr.is_empty() {
        return Ok(output.stdout);
    }
    let said = String::from_utf8_lossy(&output.stderr);
    Err(format!("{}: {said}", output.status))
}

/// Its output as a reply.
pub fn reply(output: &[u8]) -> Reply {
    Reply::new(
        0,
        [(
            "output",
            output.iter().map(|&byte| u64::from(byte)).collect(),
        )],
    )
}

/// The bytes of such a reply.
pub fn bytes(reply: &Reply) -> Vec<u8> {
    reply.lent[0].1.iter().map(|&byte| byte as u8).collect()
}

pub fn show(text: &[u8], out: &mut Formatter<'_>) -> Written {
    let shown = &text[..text.len().min(MOST_SHOWN)];
    writeln!(out, "({} bytes)\n{}", text.len(), shown.escape_ascii())
}
