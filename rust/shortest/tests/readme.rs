//! What README.md shows: the programs that plan task E stand there whole, one
//! gives its file from a text of the translator, and each command line that
//! has a `$` before it prints what stands below it.

use std::fs::File;
use std::path::{Path, PathBuf};
use std::process::{Command, Stdio};

const README: &str = include_str!("../../../README.md");
const IN_C: &str = include_str!("../../../examples/plan.c");
const IN_RUST: &str = include_str!("../examples/plan.rs");

fn at_root(path: &str) -> PathBuf {
    Path::new(env!("CARGO_MANIFEST_DIR"))
        .join("../..")
        .join(path)
}

/// The program as README.md shows it, each line set in by four blanks.
fn set_in(program: &str) -> String {
    program.replace('\n', "\n    ").replace("    \n", "\n")
}

fn plans_task_e(program: &Path, said: &str) {
    let task = File::open(at_root("crates/shortest/stdin")).unwrap();
    let run = Command::new(program).stdin(task).output().unwrap();
    assert!(run.status.success());
    assert_eq!(String::from_utf8(run.stdout).unwrap(), said);
}

#[test]
fn both_programs_are_shown() {
    for program in [IN_C, IN_RUST] {
        assert!(README.contains(set_in(program).trim_end()), "{program}");
    }
}

#[test]
fn the_program_in_c() {
    let program = Path::new(env!("CARGO_TARGET_TMPDIR")).join("plan");
    let gcc = Command::new("gcc")
        .args(["-std=c99", "-pedantic", "-Wall", "-Wextra", "-Werror", "-I"])
        .args([at_root("include"), at_root("examples/plan.c")])
        .args([env!("LIBRARY"), "-o"])
        .arg(&program)
        .status();
    assert!(gcc.unwrap().success());
    plans_task_e(&program, "step 1\noutcome 0 cost 2\n");
}

fn example(name: &str) -> PathBuf {
    let test = std::env::current_exe().unwrap();
    let folder = test.ancestors().nth(2).unwrap();
    folder.join("examples").join(name)
}

#[test]
fn the_program_in_rust() {
    let program = example("plan");
    plans_task_e(&program, "step 1\ncost 2\n");
    // A file that is refused.
    let none = Command::new(program).stdin(Stdio::null()).output().unwrap();
    assert!(!none.status.success());
}

#[test]
fn the_translation() {
    let translate = |text: Stdio| {
        let mut program = Command::new(example("translate"));
        program.arg("7").stdin(text).output().unwrap()
    };
    let text = File::open(at_root("examples/e.sas")).unwrap();
    let run = translate(text.into());
    assert!(run.status.success());
    let file = std::fs::read(at_root("crates/shortest/stdin")).unwrap();
    assert_eq!(run.stdout, file);
    // A text that is refused.
    let none = translate(Stdio::null());
    assert!(!none.status.success());
    assert_eq!(none.stderr, b"refused 31 at 0\n");
    assert!(none.stdout.is_empty());
}

/// The command lines of README.md, each with what it is said to print.
fn shown() -> Vec<(&'static str, String)> {
    let mut shown: Vec<(&str, String)> = Vec::new();
    let mut below = false;
    for line in README.lines() {
        if let Some(command) = line.strip_prefix("    $ ") {
            shown.push((command, String::new()));
            below = true;
        } else if let Some(text) = line.strip_prefix("    ").filter(|_| below) {
            let printed = &mut shown.last_mut().unwrap().1;
            printed.push_str(text);
            printed.push('\n');
        } else {
            below = false;
        }
    }
    shown
}

#[test]
fn the_command_lines() {
    let shown = shown();
    assert!(shown.len() > 15);
    for (command, printed) in shown {
        let run = Command::new("sh")
            .args(["-c", command])
            .current_dir(at_root("."))
            .output()
            .unwrap();
        let hint = "after `tools/build`";
        assert!(run.status.success(), "{hint}: {command}");
        assert_eq!(String::from_utf8(run.stdout).unwrap(), printed, "{command}");
    }
}
