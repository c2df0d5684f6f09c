//! The example: built as C with the flags that its head gives, and as C++, run, and its output held
//! against the stored text; and the header by itself.

use std::path::{Path, PathBuf};
use std::process::{Command, Output};

fn repository() -> PathBuf {
    Path::new(env!("CARGO_MANIFEST_DIR")).join("..")
}

/// The compiler on the repository's files, with every warning an error.
fn compile(compiler: &str, standard: &str, arguments: &[&str]) -> std::io::Result<Output> {
    Command::new(compiler)
        .args([standard, "-Wall", "-Wextra", "-Werror", "-Iinclude"])
        .args(arguments)
        .current_dir(repository())
        .output()
}

fn check(output: &Output) {
    assert!(
        output.status.success(),
        "{}",
        String::from_utf8_lossy(&output.stderr)
    );
}

/// Builds the example under a name of its own, runs it, and compares what it prints.
fn try_example(compiler: &str, standard: &str, language: &str) -> std::io::Result<()> {
    let program = Path::new(env!("CARGO_TARGET_TMPDIR")).join(format!("ring-example-{language}"));
    let out = program.to_str().expect("a path in UTF-8");
    let library = "crates/flnet_station/out/libflnet_station.a";
    let sources = [
        "-x",
        language,
        "examples/ring.c",
        "-x",
        "none",
        library,
        "-o",
        out,
    ];
    check(&compile(compiler, standard, &sources)?);
    let run = Command::new(&program).output().expect("the example");
    check(&run);
    let stored = std::fs::read_to_string(repository().join("examples/ring.stdout"))
        .expect("the stored text");
    assert_eq!(String::from_utf8_lossy(&run.stdout), stored);
    Ok(())
}

#[test]
fn example_runs_as_stored() {
    try_example("gcc", "-std=c11", "c").expect("gcc");
}

#[test]
fn example_runs_as_cpp() {
    if let Err(error) = try_example("g++", "-std=c++11", "c++") {
        println!("no g++ here, not tried: {error}");
    }
}

fn compile_header(compiler: &str, standard: &str, language: &str) -> std::io::Result<Output> {
    let arguments = ["-fsyntax-only", "-x", language, "include/flnet_station.h"];
    compile(compiler, standard, &arguments)
}

#[test]
fn header_alone_is_c11() {
    check(&compile_header("gcc", "-std=c11", "c").expect("gcc"));
}

#[test]
fn header_alone_is_cpp() {
    match compile_header("g++", "-std=c++11", "c++") {
        Ok(output) => check(&output),
        Err(error) => println!("no g++ here, not tried: {error}"),
    }
}
