//! The header as compilers see it, in C99 and in C++: its constants, and README's program, linked with the archive and run. Where there is no
//! compiler, the constants are held to the crate's all the same, by their text.

#![forbid(unsafe_code)]

use std::collections::BTreeMap;
use std::path::{Path, PathBuf};
use std::process::Command;
use std::{env, fs};

const README: &str = include_str!("../../README.md");
const HEADER: &str = include_str!("../../include/mittenschist.h");
const REFUSALS: &str = include_str!("../src/refusal.rs");
const ARCHIVE: &str = env!("MITTENSCHIST_ARCHIVE");

/// What every program is compiled with.
const STRICT: [&str; 4] = ["-Wall", "-Wextra", "-Wpedantic", "-Werror"];

/// A compiler with its language, if it is there.
const COMPILERS: [(&str, &[&str]); 2] =
    [("cc", &["-std=c99"]), ("c++", &["-x", "c++", "-std=c++11"])];

fn is_there(compiler: &str) -> bool {
    Command::new(compiler).arg("--version").output().is_ok()
}

/// Compiles a program with each compiler that is there, links it, and says what it prints when it is run.
fn outputs(name: &str, program: &str) -> Vec<String> {
    let there = COMPILERS.into_iter().filter(|(compiler, _)| {
        let there = is_there(compiler);
        if !there {
            println!("not compiled: no {compiler}");
        }
        there
    });
    there
        .map(|(compiler, language)| output(compiler, language, name, program))
        .collect()
}

fn output(compiler: &str, language: &[&str], name: &str, program: &str) -> String {
    let folder = PathBuf::from(env!("CARGO_TARGET_TMPDIR")).join(format!("{name}-{compiler}"));
    fs::create_dir_all(&folder).unwrap();
    let (source, object, binary) = (folder.join("a.c"), folder.join("a.o"), folder.join("a"));
    fs::write(&source, program).unwrap();
    let include = Path::new(env!("CARGO_MANIFEST_DIR")).join("../include");
    let mut compile = Command::new(compiler);
    compile.args(language).args(STRICT).arg("-I").arg(include);
    run(compile.arg("-c").arg(&source).arg("-o").arg(&object));
    let mut link = Command::new(compiler);
    run(link.arg(&object).arg(ARCHIVE).arg("-o").arg(&binary));
    run(&mut Command::new(&binary))
}

fn run(command: &mut Command) -> String {
    let output = command.output().unwrap();
    let said = String::from_utf8_lossy(&output.stderr);
    assert!(
        output.status.success(),
        "{command:?}: {}\n{said}",
        output.status
    );
    String::from_utf8(output.stdout).unwrap()
}

/// The program in README's block of C: from its first line to the brace that closes `main`, without the block's indentation.
fn readme_program() -> String {
    let first = "#include <stdio.h>";
    let start = README.lines().position(|line| line.trim_start() == first);
    let lines: Vec<&str> = README
        .lines()
        .skip(start.expect("a program in C"))
        .collect();
    let indentation = &lines[0][..lines[0].len() - first.len()];
    let end = lines
        .iter()
        .position(|line| line.strip_prefix(indentation) == Some("}"));
    let block = &lines[..=end.expect("the end of the program")];
    let line = |line: &&str| format!("{}\n", line.strip_prefix(indentation).unwrap_or(""));
    block.iter().map(line).collect()
}

#[test]
fn the_program_of_readme_prints_what_readme_says() {
    for output in outputs("readme", &readme_program()) {
        let said = format!("`{}`", output.trim_end());
        assert!(README.contains(&said), "README does not say {said}");
        assert!(output.len() > 10 && output.ends_with('\n'));
    }
}

/// The refusals of the crate by their names in C: `CutCount` is `MITTENSCHIST_CUT_COUNT`.
fn of_the_crate() -> BTreeMap<String, u32> {
    let after = REFUSALS
        .split_once("pub fn number(self)")
        .expect("the numbers")
        .1;
    let body = after
        .split_once("Self::Other(")
        .expect("the last of them")
        .0;
    let arms = body.split("Self::").skip(1);
    arms.map(|arm| {
        let (name, number) = arm.split_once(" => ").expect("a number");
        let number = number.split(',').next().and_then(|word| word.parse().ok());
        (in_c(name), number.expect("a number"))
    })
    .collect()
}

fn in_c(name: &str) -> String {
    let mut word = String::from("MITTENSCHIST");
    for letter in name.chars() {
        if letter.is_uppercase() {
            word.push('_');
        }
        word.push(letter.to_ascii_uppercase());
    }
    word
}

/// The refusals of the header.
fn of_the_header() -> BTreeMap<String, u32> {
    let body = HEADER.split_once("enum {").expect("the constants").1;
    let body = body.split_once("};").expect("their end").0;
    let named = body.lines().filter_map(|line| line.split_once(" = "));
    named
        .map(|(name, rest)| {
            let digits: String = rest.chars().take_while(char::is_ascii_digit).collect();
            (String::from(name.trim()), digits.parse().expect("a number"))
        })
        .collect()
}

#[test]
fn the_constants_are_the_refusals_of_the_crate() {
    let refusals = of_the_crate();
    assert!(refusals.len() > 10);
    assert_eq!(of_the_header(), refusals);
}

/// As the compilers read them: a wrong one is an array of a negative length.
#[test]
fn the_constants_are_compiled_to_the_refusals_of_the_crate() {
    let mut program = String::from("#include \"mittenschist.h\"\n");
    for (name, number) in of_the_crate() {
        program += &format!("typedef char is_{name}[{name} == {number} ? 1 : -1];\n");
    }
    program += "int main(void) { return 0; }\n";
    assert!(outputs("constants", &program).iter().all(String::is_empty));
}

/// Every function is declared so that both languages link it: a call of each with nothing lent is refused, or has nothing to do.
#[test]
fn every_function_is_linked() {
    let declared = HEADER.split("\nuint32_t mittenschist_").skip(1);
    let calls = declared.map(|part| {
        let (name, rest) = part.split_once('(').expect("parameters");
        let parameters = rest.split(')').next().expect("a bracket").split(',');
        let nothing: Vec<&str> = parameters.map(|_| "0").collect();
        format!("    sum += mittenschist_{name}({});\n", nothing.join(", "))
    });
    let calls: String = calls.collect();
    let program = format!(
        "#include <stdio.h>\n#include \"mittenschist.h\"\n\nint main(void) {{\n    uint32_t sum = 0;\n{calls}    printf(\"%u\\n\", sum);\n    return 0;\n}}\n"
    );
    let outputs = outputs("functions", &program);
    assert!(outputs
        .iter()
        .all(|output| output.trim() != "0" && *output == outputs[0]));
}
