//! The program `changeover` and its files: names and sizes of what it reads,
//! and what stands in the folder after it has written or failed to.

use std::fs::{self, Permissions};
use std::os::unix::fs::{FileTypeExt, PermissionsExt};
use std::path::Path;
use std::process::{Command, Stdio};

use shortest::lent::MOST_PAGE;
use shortest_check::buffers::Buffers;
use shortest_check::program::{program, said, Folder};
use shortest_check::reference;
use shortest_check::reference::files::{write_plan, Fact, Plan, Task, Variable};
use shortest_check::reference::generate::{self, task_file, Random};

const TASK_E: &[u8] = include_bytes!("../../../crates/shortest/stdin");
const TEXT_E: &[u8] = include_bytes!("../../../examples/e.sas");

fn plan_e() -> Vec<u8> {
    let (steps, signer) = (vec![1], 7);
    write_plan(&Plan { steps, signer })
}

/// Task E, its plan and its text, and two other files.
fn with_e(folder: Folder) -> Folder {
    folder.put("E.task", TASK_E);
    folder.put("E.plan", &plan_e());
    folder.put("E.sas", TEXT_E);
    folder.put("old", b"of before");
    folder.put("other", b"likewise");
    folder
}

fn new_folder(name: &str) -> Folder {
    with_e(Folder::new(env!("CARGO_TARGET_TMPDIR"), name))
}

/// Every command that writes, with this name for a file that it writes.
fn writers(name: &str) -> [Vec<&str>; 5] {
    [
        vec!["plan", "E.task", "7", name],
        vec!["sheet", "E.task", "E.plan", name],
        vec!["translate", "E.sas", "7", name],
        vec!["reduce", "E.task", "4", "9", name, "other"],
        vec!["reduce", "E.task", "4", "9", "other", name],
    ]
}

/// The name of the file that a command writes first.
fn first_written<'a>(words: &[&'a str]) -> &'a str {
    words[if words[0] == "reduce" { 4 } else { 3 }]
}

/// What each of them writes there, and to the other file.
fn results() -> [(Vec<u8>, Option<Vec<u8>>); 5] {
    let lent = &mut Buffers::long();
    let answer = lent.reduce(reference::reduce, TASK_E, 4, 9);
    let reduced = lent.reduced[..answer.reduced].to_vec();
    let origin = lent.origin[..answer.origin].to_vec();
    let page = &mut vec![0; MOST_PAGE];
    let length = reference::sheet(TASK_E, &plan_e(), page).page;
    [
        (plan_e(), None),
        (page[..length].to_vec(), None),
        (TASK_E.to_vec(), None),
        (reduced.clone(), Some(origin.clone())),
        (origin, Some(reduced)),
    ]
}

/// Every command that reads, with this name for a file that it reads.
fn readers(name: &str) -> [Vec<&str>; 10] {
    [
        vec!["check", name],
        vec!["show", name],
        vec!["mark", name, "4"],
        vec!["reduce", name, "4", "9", "old", "other"],
        vec!["plan", name, "7", "old"],
        vec!["check-plan", name, "E.plan"],
        vec!["check-plan", "E.task", name],
        vec!["sheet", name, "E.plan", "old"],
        vec!["sheet", "E.task", name, "old"],
        vec!["translate", name, "7", "old"],
    ]
}

/// A new name, that of an old file, and those of the files read: each is
/// written, and no other file but the second of two.
#[test]
fn files_are_written_and_replaced() {
    for name in ["new", "a new name", "old", "E.task", "E.plan", "E.sas"] {
        for (words, (result, second)) in writers(name).iter().zip(results()) {
            let folder = new_folder("replaced");
            let mut expected = folder.held();
            expected.insert(folder.path(name), Some(result));
            if second.is_some() {
                expected.insert(folder.path("other"), second);
            }
            assert!(folder.run(words).starts_with("done "), "{words:?}");
            assert!(folder.held() == expected, "{words:?}");
        }
    }
}

/// Every command that writes fails with this name, and all is as it was.
fn none_written(folder: &Folder, name: &str) {
    for words in writers(name) {
        let before = folder.held();
        assert_eq!(folder.run(&words), format!("failed {name}\n"));
        assert!(folder.held() == before, "{words:?}");
    }
}

#[test]
fn a_folder_that_is_not_there() {
    let folder = new_folder("not_there");
    for name in ["gone/new", "gone/old/new", "E.task/new", "E.task/"] {
        none_written(&folder, name);
    }
}

#[test]
fn a_folder_in_the_place_of_the_file() {
    let folder = new_folder("in_place");
    fs::create_dir(folder.path("folder")).unwrap();
    for name in ["folder", "folder/", "./folder", ".", ".."] {
        none_written(&folder, name);
    }
}

#[test]
fn a_new_file_that_is_there_already() {
    let folder = new_folder("already");
    for name in ["old", "new", "E.task", "a name"] {
        folder.put(&format!("{name}.new"), b"of another run");
        none_written(&folder, name);
    }
}

/// Of the longest names, the old files are left and others are not made.
#[test]
fn names_without_room_for_the_ending() {
    let folder = new_folder("long_names");
    let old = "x".repeat(252);
    folder.put(&old, b"of before");
    for name in [old, "y".repeat(255), "z".repeat(256)] {
        none_written(&folder, &name);
    }
}

#[test]
fn both_names_the_same() {
    let folder = new_folder("same");
    for [one, other] in [["old", "old"], ["new", "new"], ["old", "./old"]] {
        let before = folder.held();
        let words = ["reduce", "E.task", "4", "9", one, other];
        assert_eq!(folder.run(&words), format!("failed {other}\n"));
        assert!(folder.held() == before, "{words:?}");
    }
}

/// Where a name is the other's with the ending, both files are in place or
/// neither is.
fn with_the_ending(folder: &Folder, reduced: &str, origin: &str) {
    let before = folder.held();
    let said = folder.run(&["reduce", "E.task", "4", "9", reduced, origin]);
    let mut expected = before;
    if said.starts_with("done ") {
        let [.., (file, origin_file), _] = results();
        expected.insert(folder.path(reduced), Some(file));
        expected.insert(folder.path(origin), origin_file);
    }
    assert!(folder.held() == expected, "{said}{:?}", folder.names());
}

#[test]
fn the_second_name_is_the_first_with_the_ending() {
    with_the_ending(&new_folder("second_ending"), "old", "old.new");
}

#[test]
fn the_first_name_is_the_second_with_the_ending() {
    with_the_ending(&new_folder("first_ending"), "old.new", "old");
    with_the_ending(&new_folder("first_ending"), "./old.new", "old");
    let folder = new_folder("first_ending");
    folder.put("old.new", b"of another run");
    with_the_ending(&folder, "old.new", "old");
}

#[test]
fn a_pipe_in_the_place_of_the_file() {
    let folder = new_folder("pipe");
    let pipe = folder.path("pipe");
    let made = Command::new("mkfifo").arg(&pipe).status();
    assert!(made.unwrap().success());
    for words in writers("pipe") {
        assert_eq!(folder.run(&words), "failed pipe\n");
        assert!(fs::metadata(&pipe).unwrap().file_type().is_fifo());
        assert!(!folder.path("pipe.new").exists(), "{words:?}");
    }
}

/// What the program says where no file may be longer than so many blocks: the
/// system then refuses to write, as it does where the device is full.
fn run_within(folder: &Folder, blocks: u32, words: &[&str]) -> String {
    let limited = format!("trap '' XFSZ; ulimit -f {blocks}; exec \"$0\" \"$@\"");
    let mut command = Command::new("sh");
    command.arg("-c").arg(limited).arg(program()).args(words);
    command.current_dir(folder.path("")).stdin(Stdio::null());
    said(command.output().unwrap())
}

#[test]
fn no_room_for_a_byte() {
    let folder = new_folder("no_room");
    let before = folder.held();
    for words in [writers("old"), writers("new"), writers("E.task")].concat() {
        let failed = format!("failed {}\n", first_written(&words));
        assert_eq!(run_within(&folder, 0, &words), failed);
        assert!(folder.held() == before, "{words:?}");
    }
}

/// A task whose reduced file has some hundred bytes, and its origin file some
/// thousands.
fn with_a_long_origin() -> Task {
    let variables = vec![Variable { size: 32, start: 0 }; 50];
    let goal = |variable| Fact { variable, value: 1 };
    Task {
        variables,
        goal: (0..50).map(goal).collect(),
        actions: Vec::new(),
        signer: 1,
    }
}

/// The first file is written whole and the second in part: both are as they
/// were.
#[test]
fn no_room_for_the_second() {
    let folder = new_folder("no_room_for_two");
    folder.put("task", &task_file(&with_a_long_origin()));
    let before = folder.held();
    for [reduced, origin] in [["old", "other"], ["new", "newer"], ["task", "new"]] {
        let words = ["reduce", "task", "4", "9", reduced, origin];
        assert_eq!(run_within(&folder, 3, &words), format!("failed {origin}\n"));
        assert!(folder.held() == before, "{words:?}");
    }
    let words = ["reduce", "task", "4", "9", "old", "other"];
    assert!(run_within(&folder, 8, &words).starts_with("done "));
    assert!((1..=1_536).contains(&folder.get("old").len()));
    assert!((3_073..=4_096).contains(&folder.get("other").len()));
}

fn set_mode(folder: &Folder, name: &str, mode: u32) {
    fs::set_permissions(folder.path(name), Permissions::from_mode(mode)).unwrap();
}

/// Runs a program as a user whom permissions bind.
fn as_user(program: &Path) -> Command {
    let mut command = Command::new("setpriv");
    command.args(["--reuid=65534", "--regid=65534", "--clear-groups"]);
    command.arg(program).stdin(Stdio::null());
    command
}

/// Nothing is written to the folder while it is read-only, and then all is.
fn read_only(folder: &Folder, run: impl Fn(&[&str]) -> String) {
    let before = folder.held();
    for words in [writers("old"), writers("new")].concat() {
        assert_eq!(run(&words), format!("failed {}\n", first_written(&words)));
        assert!(folder.held() == before, "{words:?}");
    }
    set_mode(folder, "", 0o777);
    for words in [writers("old"), writers("new")].concat() {
        assert!(run(&words).starts_with("done "), "{words:?}");
    }
    set_mode(folder, "E.task", 0o300);
    assert_eq!(run(&["check", "E.task"]), "failed E.task\n");
}

/// It stands where every user comes, with the program in it. Where permissions
/// do not bind the tests, the program is run as another user.
#[test]
fn a_read_only_folder() {
    let name = std::process::id().to_string();
    let folder = with_e(Folder::new(std::env::temp_dir(), &name));
    let copy = folder.path("changeover");
    let copied = Command::new("cp").arg(program()).arg(&copy).status();
    assert!(copied.unwrap().success());
    for name in folder.names() {
        set_mode(&folder, &name, 0o755);
    }
    set_mode(&folder, "", 0o555);
    let true_as_user = || as_user(Path::new("true")).status();
    if fs::create_dir(folder.path("probe")).is_err() {
        read_only(&folder, |words| folder.run(words));
    } else if true_as_user().is_ok_and(|status| status.success()) {
        read_only(&folder, |words| {
            let mut command = as_user(&copy);
            command.current_dir(folder.path("")).args(words);
            said(command.output().unwrap())
        });
    } else {
        eprintln!("no other user by setpriv: a read-only folder is not tried");
    }
    set_mode(&folder, "", 0o777);
    folder.remove();
}

#[test]
fn folders_and_missing_files_as_input() {
    let folder = new_folder("no_input");
    fs::create_dir(folder.path("folder")).unwrap();
    let before = folder.held();
    for name in [
        "folder",
        ".",
        "gone",
        "no such file",
        "gone/E.task",
        "E.task/",
    ] {
        for words in readers(name) {
            assert_eq!(folder.run(&words), format!("failed {name}\n"));
        }
    }
    assert!(folder.held() == before);
}

#[test]
fn names_with_blanks() {
    let folder = new_folder("blanks");
    let name = " task E, süd ";
    folder.put(name, TASK_E);
    let done = "done task variables 3 actions 7 signer 7\n";
    assert_eq!(folder.run(&["check", name]), done);
    let done = "done cost 2 steps 1\n";
    assert_eq!(folder.run(&["plan", name, "7", "the plan"]), done);
    assert_eq!(folder.get("the plan"), plan_e());
    assert_eq!(folder.run(&["check-plan", name, "the plan"]), done);
    folder.put("the plan", b"cut");
    let refused = "refused 1 at 0 in the plan\n";
    assert_eq!(folder.run(&["check-plan", name, "the plan"]), refused);
}

/// Each command on so many bytes 0, by its file: the refusal of a task or plan
/// file, and that of a text.
fn zeros(length: usize, of_file: &str, of_text: &str) {
    let folder = new_folder(&format!("zeros_{length}"));
    folder.put("zeros", &vec![0; length]);
    let before = folder.held();
    for words in readers("zeros") {
        let expected = match words[..] {
            ["translate", ..] => format!("{of_text}\n"),
            [_, "E.task", ..] => format!("{of_file} in zeros\n"),
            _ => format!("{of_file}\n"),
        };
        assert_eq!(folder.run(&words), expected, "{words:?}");
    }
    assert!(folder.held() == before);
}

#[test]
fn files_around_the_largest_size() {
    zeros(65_536, "refused 2 at 0", "refused 31 at 0");
    zeros(65_537, "refused 4 at 0", "refused 4 at 0");
    zeros(200_000, "refused 4 at 0", "refused 4 at 0");
}

#[test]
fn an_empty_file() {
    zeros(0, "refused 1 at 0", "refused 31 at 0");
}

#[test]
fn a_task_of_the_largest_size() {
    let folder = new_folder("largest");
    let task = generate::largest(&mut Random::new(1));
    let mut file = task_file(&task);
    folder.put("largest", &file);
    assert_eq!(file.len(), 65_536);
    let signer = task.signer;
    let done = format!("done task variables 64 actions 512 signer {signer}\n");
    assert_eq!(folder.run(&["check", "largest"]), done);
    file.push(0);
    folder.put("largest", &file);
    assert_eq!(folder.run(&["check", "largest"]), "refused 4 at 0\n");
}
