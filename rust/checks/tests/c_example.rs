//! The C header and the C example: compiled with all warnings as errors, run, and run under valgrind.

use checks::repository;
use std::env;
use std::path::{Path, PathBuf};
use std::process::{Command, Output};

/// The archive that the crate `mulzhegat` links: see its `build.rs`.
fn archive() -> PathBuf {
    let folder = env::var_os("MULZHEGAT_LIB_DIR");
    folder.map_or_else(|| repository().join("target/staticlib"), PathBuf::from).join("libmulzhegat.a")
}

/// A path of this test's own in cargo's folder for temporary files.
fn scratch(name: &str) -> PathBuf {
    Path::new(env!("CARGO_TARGET_TMPDIR")).join(name)
}

/// Runs a command and expects it to succeed.
fn run(command: &mut Command) -> Output {
    let output = command.output().unwrap_or_else(|error| panic!("{command:?} does not run: {error}"));
    assert!(output.status.success(), "{command:?} failed:\n{}", String::from_utf8_lossy(&output.stderr));
    output
}

fn compiler(name: &str, standard: &str) -> Command {
    let mut command = Command::new(name);
    command.arg(format!("-std={standard}")).args(["-O2", "-Wall", "-Wextra", "-Werror", "-pedantic", "-I"]);
    command.arg(repository().join("include"));
    command
}

/// Builds the example by the line at its top.
fn example(name: &str) -> PathBuf {
    let program = scratch(name);
    run(compiler("gcc", "c99").arg(repository().join("examples/c/total.c")).arg("-o").arg(&program).arg(archive()));
    program
}

#[test]
fn c_and_cpp_take_the_header_without_warnings() {
    // header.c has the record layouts that the library and the crate count on.
    let source = repository().join("rust/checks/tests/header.c");
    for (name, language, standard) in
        [("gcc", "c", "c99"), ("gcc", "c", "c11"), ("g++", "c++", "c++11"), ("g++", "c++", "c++17")]
    {
        run(compiler(name, standard).args(["-fsyntax-only", "-x", language]).arg(&source));
    }
    assert_eq!(size_of::<mulzhegat::Plan>(), 43 * 8);
    assert_eq!(size_of::<mulzhegat::Pass>(), 10 * 8);
    assert_eq!(size_of::<mulzhegat::Sizes>(), 7 * 8);
    assert_eq!(size_of::<mulzhegat::Progress>(), 5 * 8);
    assert_eq!(size_of::<mulzhegat::dispatch::Job>(), 4 * 8);
}

#[test]
fn the_c_example_prints_what_is_expected() {
    let expected = std::fs::read_to_string(repository().join("examples/c/expected.txt")).unwrap();
    let output = run(&mut Command::new(example("total")));
    assert_eq!(String::from_utf8(output.stdout).unwrap(), expected);
}

#[test]
fn the_c_example_runs_clean_under_valgrind() {
    let expected = std::fs::read_to_string(repository().join("examples/c/expected.txt")).unwrap();
    let valgrind = ["--quiet", "--error-exitcode=9", "--leak-check=full"];
    let output = run(Command::new("valgrind").args(valgrind).arg(example("total_for_valgrind")));
    assert_eq!(String::from_utf8(output.stdout).unwrap(), expected);
    assert_eq!(String::from_utf8_lossy(&output.stderr), "");
}
