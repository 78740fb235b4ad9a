//! The program `changeover` and its words: usage, commands from standard input,
//! and an output that takes nothing.

use std::fs::File;
use std::process::Stdio;
use std::thread::sleep;
use std::time::Duration;

use shortest_check::program::{said, Folder};

const TASK_E: &[u8] = include_bytes!("../../../crates/shortest/stdin");
const TEXT_E: &[u8] = include_bytes!("../../../examples/e.sas");

const USAGE: [&str; 9] = [
    "check FILE",
    "show FILE",
    "mark TASK LEVEL",
    "reduce TASK LEVEL SIGNER REDUCED ORIGIN",
    "plan TASK SIGNER PLAN [LEVEL]",
    "check-plan TASK PLAN",
    "sheet TASK PLAN PAGE",
    "translate TEXT SIGNER TASK",
    "-",
];

/// The most bytes of a line that is a command.
const LINE: usize = 16_384;

fn new_folder(name: &str) -> Folder {
    let folder = Folder::new(env!("CARGO_TARGET_TMPDIR"), name);
    folder.put("E.task", TASK_E);
    folder.put("E.sas", TEXT_E);
    folder
}

/// The words of a command, with which it would write its files; the one in
/// brackets, which it can do without, is among them.
fn words(usage: &str) -> Vec<&str> {
    let word = |word| match word {
        "TASK" => "E.task",
        "TEXT" => "E.sas",
        "LEVEL" | "[LEVEL]" | "SIGNER" => "4",
        _ => word,
    };
    usage.split(' ').map(word).collect()
}

/// How many words a command needs.
fn needed(usage: &str) -> usize {
    let in_brackets = |word: &&str| word.starts_with('[');
    usage.split(' ').count() - usage.split(' ').filter(in_brackets).count()
}

fn failed(usage: &str) -> String {
    format!("failed usage: {usage}\n")
}

/// What stands where there is no command.
fn no_command() -> String {
    let lines = USAGE.map(|usage| format!("usage: {usage}\n"));
    lines.concat() + &failed("COMMAND WORDS")
}

/// By arguments and as a line the program says this, and all files are as they
/// were.
fn says(folder: &Folder, words: &[&str], expected: &str) {
    let before = folder.held();
    assert_eq!(folder.run(words), expected, "{words:?}");
    let line = words.join(" ") + "\n";
    assert_eq!(folder.run_lines(line.as_bytes()), expected, "{words:?}");
    assert!(folder.held() == before, "{words:?}");
}

#[test]
fn a_word_too_few_or_too_many() {
    let folder = new_folder("count");
    for usage in USAGE {
        let right = words(usage);
        let needed = needed(usage);
        if needed > 1 {
            says(&folder, &right[..needed - 1], &failed(usage));
            says(&folder, &right[..1], &failed(usage));
        }
        for more in [1, 2, 3, 8, 20] {
            let many = [&right[..], &vec!["4"; more]].concat();
            says(&folder, &many, &failed(usage));
        }
    }
}

#[test]
fn an_empty_word() {
    let folder = new_folder("empty_word");
    for usage in USAGE {
        for place in 1..words(usage).len() {
            let mut words = words(usage);
            words[place] = "";
            says(&folder, &words, &failed(usage));
        }
    }
}

/// Such a name would be a line of its own below that which it is printed in,
/// and perhaps one that says `done`.
#[test]
fn a_word_with_a_line_feed() {
    let folder = new_folder("line_feed");
    folder.put("task\ndone", TASK_E);
    let before = folder.held();
    for usage in USAGE {
        for place in 1..words(usage).len() {
            for word in ["task\ndone", "gone\ndone", "E.task\n", "\n4"] {
                let mut words = words(usage);
                words[place] = word;
                assert_eq!(folder.run(&words), failed(usage), "{words:?}");
            }
        }
        assert_eq!(folder.run(&[&format!("{usage}\n")]), no_command());
    }
    assert!(folder.held() == before);
}

/// Whether the file is there or not.
#[test]
fn words_that_are_no_numbers() {
    let folder = new_folder("no_numbers");
    let larger = ["4294967296", "10000000000", "18446744073709551617"];
    let others = ["x", "-1", "+1", "1x", "x1", "0x1", "1.", "4,", "1_0", "٤"];
    let mut tried = 0;
    for usage in USAGE {
        for (place, name) in usage.split(' ').enumerate() {
            if !["LEVEL", "[LEVEL]", "SIGNER"].contains(&name) {
                continue;
            }
            for word in [&larger[..], &others].concat() {
                let mut words = words(usage);
                words[place] = word;
                says(&folder, &words, &failed(usage));
                words[1] = "gone";
                says(&folder, &words, &failed(usage));
                tried += 1;
            }
        }
    }
    assert_eq!(tried, 6 * 13);
}

#[test]
fn numbers_go_to_the_library() {
    let folder = new_folder("numbers");
    let refused = "refused 8 at 0\n";
    says(&folder, &["mark", "E.task", "5"], refused);
    for level in ["0", "6", "9", "4294967295"] {
        says(&folder, &["mark", "E.task", level], refused);
        says(
            &folder,
            &["reduce", "E.task", level, "7", "a", "b"],
            refused,
        );
    }
    for level in ["0", "1", "2", "3", "6", "9", "4294967295"] {
        for signer in ["0", "7"] {
            says(&folder, &["plan", "E.task", signer, "a", level], refused);
        }
    }
    let refused = "refused 7 at 0\n";
    for level in ["4", "5"] {
        says(
            &folder,
            &["reduce", "E.task", level, "0", "a", "b"],
            refused,
        );
        says(&folder, &["plan", "E.task", "0", "a", level], refused);
    }
    says(&folder, &["plan", "E.task", "0", "a"], refused);
    says(&folder, &["translate", "E.sas", "0", "a"], refused);

    let signer = "4294967295";
    folder.run(&["reduce", "E.task", "1", signer, "reduced", "origin"]);
    folder.run(&["plan", "E.task", signer, "plan"]);
    folder.run(&["translate", "E.sas", signer, "task"]);
    for name in ["reduced", "origin", "plan", "task"] {
        let said = folder.run(&["check", name]);
        assert!(said.starts_with("done ") && said.ends_with(" signer 4294967295\n"));
    }
}

#[test]
fn no_command_and_unknown_ones() {
    let folder = new_folder("unknown");
    assert_eq!(folder.run(&[]), no_command());
    for word in [
        "", "help", "--help", "Check", "checks", "chec", "check-", "--",
    ] {
        says(&folder, &[word], &no_command());
        says(&folder, &[word, "E.task"], &no_command());
    }
}

/// A comment is printed as it stands, however long; what a line has written,
/// a later one reads; the last line needs no line feed.
#[test]
fn lines_in_turn() {
    let folder = new_folder("in_turn");
    let long = format!("# {}\t  end ", "long ".repeat(4_100));
    assert!(long.len() > 20_000);
    let lines = [
        ("# task E", "# task E"),
        ("plan E.task 7 new", "done cost 2 steps 1"),
        (&long, &long),
        ("check-plan E.task new", "done cost 2 steps 1"),
        ("#", "#"),
        ("show new", "plan signer 7\nstep 1\ndone"),
        (
            "reduce E.task 4 9 new org",
            "done rounds 2 reduced 80 origin 44",
        ),
        ("check new", "done task variables 2 actions 2 signer 9"),
        ("#check new", "#check new"),
        ("check-plan E.task new", "refused 2 at 0 in new"),
        ("plan E.task 7 new 5", "done cost 2 steps 1 turns 3"),
        ("plan E.task 7 new 4", "done cost 2 steps 1"),
        (
            "reduce E.task 5 9 new org",
            "done rounds 2 turns 3 reduced 52 origin 30",
        ),
        ("check gone", "failed gone"),
        ("mark E.task 9", "refused 8 at 0"),
        ("translate E.sas 5 E.task", "done task 176"),
        ("check E.task", "done task variables 3 actions 7 signer 5"),
    ];
    let input: String = lines.iter().map(|(line, _)| format!("{line}\n")).collect();
    let output: String = lines.iter().map(|(_, said)| format!("{said}\n")).collect();
    assert_eq!(folder.run_lines(input.as_bytes()), output);
    assert_eq!(folder.names(), ["E.sas", "E.task", "new", "org"]);
    folder.put("E.task", TASK_E);
    let input = input.trim_end_matches('\n');
    assert_eq!(folder.run_lines(input.as_bytes()), output);
}

#[test]
fn the_ends_of_standard_input() {
    let folder = new_folder("ends");
    assert_eq!(folder.run_lines(b""), "");
    assert_eq!(folder.run_lines(b"# last"), "# last\n");
    assert_eq!(folder.run_lines(b"#"), "#\n");
    assert_eq!(folder.run_lines(b"check gone"), "failed gone\n");
    assert_eq!(folder.run_lines(b"\n"), no_command());
    assert_eq!(
        folder.run_lines(b"#\n\n#"),
        format!("#\n{}#\n", no_command())
    );
    // A folder, which the system refuses to read.
    let mut command = folder.command();
    command.arg("-").stdin(File::open(folder.path("")).unwrap());
    assert_eq!(said(command.output().unwrap()), "failed -\n");
}

/// The longest line is a command, whose name no system takes; a longer one is
/// none, and the line behind it is run.
#[test]
fn long_lines() {
    let folder = new_folder("long_lines");
    let longest = "x".repeat(LINE - "check ".len());
    let behind = "check E.task\n";
    let done = "done task variables 3 actions 7 signer 7\n";
    let says = |line: &str, expected: &str| {
        let said = folder.run_lines(format!("{line}\n{behind}").as_bytes());
        assert!(said == format!("{expected}{done}"), "{expected}");
    };
    says(&format!("check {longest}"), &format!("failed {longest}\n"));
    says(&format!("check {longest}x"), &failed("check FILE"));
    for usage in USAGE {
        let words = words(usage).join(" ");
        says(&format!("{words}{}", "x".repeat(LINE)), &long_failed(usage));
        says(&format!("{words} {}", "x".repeat(LINE)), &failed(usage));
    }
    says(&"x".repeat(100_000), &no_command());
    assert_eq!(folder.names(), ["E.sas", "E.task"]);
}

/// With its last word longer; the one word of `-` is then no command.
fn long_failed(usage: &str) -> String {
    match usage {
        "-" => no_command(),
        _ => failed(usage),
    }
}

/// A run whose standard output takes nothing: it ends, with status 0.
fn ends(folder: &Folder, words: &[&str], lines: &str) {
    folder.put("lines", lines.as_bytes());
    let full = File::options().write(true).open("/dev/full").unwrap();
    let mut command = folder.command();
    command.args(words).stdout(full).stderr(Stdio::null());
    let lines = File::open(folder.path("lines")).unwrap();
    let mut child = command.stdin(lines).spawn().unwrap();
    for _ in 0..2_000 {
        if let Some(status) = child.try_wait().unwrap() {
            assert_eq!(status.code(), Some(0), "{words:?}");
            return;
        }
        sleep(Duration::from_millis(5));
    }
    child.kill().unwrap();
    panic!("{words:?} does not end");
}

#[test]
fn an_output_that_takes_nothing() {
    let folder = new_folder("full");
    ends(&folder, &[], "");
    for usage in USAGE {
        ends(&folder, &words(usage), "check E.task\n");
    }
    ends(&folder, &["check", "gone"], "");
}

#[test]
fn lines_stop_where_the_output_takes_nothing() {
    let folder = new_folder("full_lines");
    let long = format!("# {}", "long ".repeat(2_000));
    for line in [
        "plan E.task 7 first",
        "check gone",
        "x",
        "show E.task",
        &long,
    ] {
        let lines = format!("{line}\nplan E.task 7 second\n");
        assert!(folder
            .run_lines(lines.as_bytes())
            .ends_with("done cost 2 steps 1\n"));
        std::fs::remove_file(folder.path("second")).unwrap();
        ends(&folder, &["-"], &lines);
        assert!(!folder.path("second").exists(), "{line}");
    }
}
