//! The programs: `changeover`, run in a folder of a test's own, and `cases`.

use std::collections::BTreeMap;
use std::fs;
use std::io::Write;
use std::path::{Path, PathBuf};
use std::process::{Command, Output, Stdio};

/// A program that `tools/build` builds.
fn built(name: &str) -> PathBuf {
    let root = Path::new(env!("CARGO_MANIFEST_DIR")).join("../..");
    let program = root.join("target/bin").join(name);
    let found = program.canonicalize();
    found.unwrap_or_else(|_| {
        let missing = program.display();
        panic!("no {missing}: `tools/build` builds it")
    })
}

/// The program `changeover`.
pub fn program() -> PathBuf {
    built("changeover")
}

/// What the program `cases` prints for the cases of its standard input.
pub fn run_cases(lines: &[u8]) -> String {
    text(output_of(&mut Command::new(built("cases")), lines))
}

/// A folder, and the files in it by name.
pub struct Folder(PathBuf);

impl Folder {
    /// A new and empty one.
    pub fn new(parent: impl AsRef<Path>, name: &str) -> Folder {
        let folder = Folder(parent.as_ref().join(format!("changeover-{name}")));
        folder.remove();
        fs::create_dir_all(&folder.0).unwrap();
        folder
    }

    pub fn remove(&self) {
        if self.0.exists() {
            fs::remove_dir_all(&self.0).unwrap();
        }
    }

    pub fn path(&self, name: &str) -> PathBuf {
        self.0.join(name)
    }

    pub fn put(&self, name: &str, bytes: &[u8]) {
        fs::write(self.path(name), bytes).unwrap();
    }

    pub fn get(&self, name: &str) -> Vec<u8> {
        fs::read(self.path(name)).unwrap()
    }

    /// All files by their paths, each with its bytes, and all folders.
    pub fn held(&self) -> BTreeMap<PathBuf, Option<Vec<u8>>> {
        let mut held = BTreeMap::new();
        let mut left = vec![self.0.clone()];
        while let Some(path) = left.pop() {
            if path.is_dir() {
                let inside = fs::read_dir(&path).unwrap();
                left.extend(inside.map(|entry| entry.unwrap().path()));
                held.insert(path, None);
            } else {
                let bytes = fs::read(&path).unwrap();
                held.insert(path, Some(bytes));
            }
        }
        held
    }

    /// The names in it, in order.
    pub fn names(&self) -> Vec<String> {
        let name = |path: &PathBuf| path.strip_prefix(&self.0).unwrap().display().to_string();
        self.held().keys().skip(1).map(name).collect()
    }

    /// The program, to be run in the folder.
    pub fn command(&self) -> Command {
        let mut command = Command::new(program());
        command.current_dir(&self.0).stdin(Stdio::null());
        command
    }

    /// What the program prints for the words of a command.
    pub fn run(&self, words: &[&str]) -> String {
        said(self.command().args(words).output().unwrap())
    }

    /// What the program prints for commands from standard input.
    pub fn run_lines(&self, lines: &[u8]) -> String {
        text(output_of(self.command().arg("-"), lines))
    }
}

/// Runs a command with this standard input.
fn output_of(command: &mut Command, lines: &[u8]) -> Output {
    let input = command.stdin(Stdio::piped());
    let output = input.stdout(Stdio::piped()).stderr(Stdio::piped());
    let mut child = output.spawn().unwrap();
    let mut input = child.stdin.take().unwrap();
    let lines = lines.to_vec();
    let writer = std::thread::spawn(move || input.write_all(&lines).unwrap());
    let output = child.wait_with_output().unwrap();
    writer.join().unwrap();
    output
}

/// What a command printed. Its last line says how it ended, and where the system
/// refused a file, something stands on standard error.
pub fn said(output: Output) -> String {
    let is_silent = output.stderr.is_empty();
    let said = text(output);
    let last = said.lines().last().unwrap_or_default();
    let (how, _) = last.split_once(' ').unwrap_or((last, ""));
    assert!(["done", "refused", "failed"].contains(&how), "{said}");
    let is_usage = last.starts_with("failed usage: ");
    assert_eq!(is_silent, how != "failed" || is_usage, "{said}");
    said
}

/// What a run that ended with status 0 printed: whole lines.
fn text(output: Output) -> String {
    assert_eq!(output.status.code(), Some(0));
    let text = String::from_utf8(output.stdout).unwrap();
    assert!(text.is_empty() || text.ends_with('\n'), "{text}");
    text
}
