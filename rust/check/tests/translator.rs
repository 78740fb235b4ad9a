//! The worked examples of texts of the translator, by both implementations. In
//! what is written out here `/` stands for a line feed.

use shortest::lent::{self as library, Answer};
use shortest::Outcome;
use shortest_check::buffers::Translate;
use shortest_check::reference;
use shortest_check::reference::files::{read_task, write_task, Action, Fact, Task, Variable};

const TASK_E: &[u8] = include_bytes!("../../../crates/shortest/stdin");
const TEXT_E: &[u8] = include_bytes!("../../../examples/e.sas");

const TRANSLATES: [Translate; 2] = [reference::translate, library::translate];

const UNTOUCHED: u8 = 0xAA;

fn lines(text: &str) -> Vec<u8> {
    text.replace('/', "\n").into_bytes()
}

/// With a file of this length, all that either call hands back.
fn answers(text: &[u8], signer: u32, length: usize) -> [(Answer, Vec<u8>); 2] {
    TRANSLATES.map(|translate| {
        let mut file = vec![UNTOUCHED; length];
        let answer = translate(text, signer, &mut file);
        (answer, file)
    })
}

/// Nothing is written, whatever the signer and the length.
fn refused(text: &[u8], number: u32, place: usize) {
    let answer = Answer::from(Outcome::refused(number, place));
    for signer in [0, 7] {
        for length in [0, 1_000] {
            for found in answers(text, signer, length) {
                let beginning = &text[..text.len().min(1_000)];
                let expected = (answer, vec![UNTOUCHED; length]);
                assert_eq!(found, expected, "{}", beginning.escape_ascii());
            }
        }
    }
}

/// Under signer 7 the file is written where there is room, and nothing behind
/// it; signer 0 is refused first.
fn translated(text: &[u8], expected: &[u8]) {
    let needed = expected.len();
    for length in [0, needed - 1, needed, needed + 1, needed + 100] {
        let untouched = vec![UNTOUCHED; length];
        let unsigned = Answer::from(Outcome::refused(7, 0));
        for found in answers(text, 0, length) {
            assert_eq!(found, (unsigned, untouched.clone()));
        }
        let (mut answer, mut file) = (Answer::from(Outcome::refused(21, needed)), untouched);
        if needed <= length {
            file[..needed].copy_from_slice(expected);
            answer = Answer {
                task: needed,
                ..Answer::default()
            };
        }
        for found in answers(text, 7, length) {
            assert_eq!(found, (answer, file.clone()));
        }
    }
}

const TEXT_M: &str = "begin_version/3/end_version/begin_metric/0/end_metric/0/0/\
    begin_state/end_state/begin_goal/0/end_goal/0/0/";

#[test]
fn the_shortest_text_and_its_prefixes() {
    let text = lines(TEXT_M);
    assert_eq!(text.len(), 106);
    let file = [
        [4, 0, 1, 0, 0, 0, 0, 0],
        [0, 0, 3, 0, 8, 0, 5, 0],
        [7, 0, 0, 0, 12, 0, 0, 0],
    ];
    translated(&text, &file.concat());
    for end in 0..text.len() {
        refused(&text[..end], 31, end);
    }
    for byte in 0..=255 {
        refused(&[&text[..], &[byte]].concat(), 31, 106);
    }
}

const TEXT_S: &str = "begin_version/3/end_version/begin_metric/1/end_metric/2/\
    begin_variable/a/-1/3////end_variable/begin_variable/b/-1/2///end_variable/0/\
    begin_state/0/1/end_state/begin_goal/2/1 0/0 2/end_goal/1/\
    begin_operator/turn/0/2/0 1 1 0/0 0 -1 2/5/end_operator/0/";

#[test]
fn lists_are_put_in_order() {
    let text = lines(TEXT_S);
    assert_eq!(text.len(), 249);
    let mut file = [
        &[4, 0, 1, 0, 2, 0, 1, 0, 4, 0, 2, 0, 3, 0, 0, 0][..],
        &[4, 0, 2, 0, 2, 0, 1, 0],
        &[8, 0, 3, 0, 0, 0, 2, 0, 1, 0, 0, 0],
        &[20, 0, 4, 0, 5, 0, 0, 0, 1, 0, 2, 0],
        &[1, 0, 1, 0, 0, 0, 2, 0, 1, 0, 0, 0],
        &[8, 0, 5, 0, 7, 0, 0, 0, 60, 0, 0, 0],
    ]
    .concat();
    translated(&text, &file);
    file[40] = 1;
    translated(&lines(&TEXT_S.replace("metric/1/", "metric/0/")), &file);
}

#[test]
fn text_e() {
    assert_eq!((TEXT_E.len(), TASK_E.len()), (666, 176));
    translated(TEXT_E, TASK_E);
    for end in 0..TEXT_E.len() {
        refused(&TEXT_E[..end], 31, end);
    }
}

/// Text E with other lines for those that stand at an offset.
fn changed(at: usize, from: &str, to: &str) -> Vec<u8> {
    let (before, behind) = TEXT_E.split_at(at);
    let behind = behind.strip_prefix(&lines(from)[..]).unwrap();
    [before, &lines(to), behind].concat()
}

fn change_refused(at: usize, from: &str, to: &str, number: u32, place: usize) {
    refused(&changed(at, from, to), number, place);
}

#[test]
fn version_and_metric() {
    change_refused(14, "3/", "4/", 31, 14);
    change_refused(14, "3/", "30/", 31, 15);
    change_refused(14, "3/", "03/", 31, 14);
    change_refused(41, "1/", "2/", 31, 41);
    change_refused(41, "1/", "10/", 31, 42);
    change_refused(41, "1/", "-1/", 31, 41);
    let text = String::from_utf8(TEXT_E.to_vec()).unwrap();
    refused(text.replace('\n', "\r\n").as_bytes(), 31, 13);
}

#[test]
fn variables() {
    let nines = "9".repeat(60_000);
    change_refused(54, "3/", "65/", 4, 54);
    change_refused(54, "3/", "65 /", 31, 56);
    change_refused(54, "3/", "03/", 31, 55);
    change_refused(54, "3/", &(nines.clone() + "/"), 4, 54);
    refused(&changed(54, "3/", &nines)[..60_054], 31, 60_054);
    change_refused(54, "3/", "4/", 31, 225);
    change_refused(54, "3/", "2/", 31, 169);
    // 3 more than the numbers of 1, 2, 4 and 8 bytes.
    change_refused(54, "3/", "259/", 4, 54);
    change_refused(54, "3/", "65539/", 4, 54);
    change_refused(54, "3/", "4294967299/", 4, 54);
    change_refused(54, "3/", "18446744073709551619/", 4, 54);

    change_refused(79, "-1/", "0/", 32, 79);
    change_refused(79, "-1/", "-2/", 31, 80);
    change_refused(79, "-1/", "12x/", 31, 81);
    change_refused(79, "-1/", "-1 /", 31, 81);
    change_refused(79, "-1/", &(nines + "/"), 32, 79);
    change_refused(82, "3/", "0/", 4, 82);
    change_refused(82, "3/", "33/", 4, 82);
    change_refused(82, "3/", "4/", 31, 124);
    change_refused(82, "3/", "2/", 31, 101);
}

#[test]
fn groups() {
    change_refused(225, "0/", "1/", 31, 233);
    change_refused(225, "0/", "-1/", 31, 225);
    change_refused(225, "0/", &("7".repeat(5_000) + "/"), 31, 5_232);
    let group = |facts: &str| format!("begin_mutex_group/{facts}end_mutex_group/");
    let two = format!("2/{}{}", group("1/999 777/"), group("0/"));
    translated(&changed(225, "0/", &two), TASK_E);
    let nines = "9".repeat(30_000);
    let large = format!("1/{}", group(&format!("2/{nines} 0/0 {nines}/")));
    translated(&changed(225, "0/", &large), TASK_E);
    // A number of facts that is not theirs: the next line begins a pair, or
    // the word behind the last is due.
    let more = format!("1/{}", group("2/0 0/"));
    change_refused(225, "0/", &more, 31, 251);
    let fewer = format!("1/{}", group("0/0 0/"));
    change_refused(225, "0/", &fewer, 31, 247);
}

#[test]
fn start_and_goal() {
    change_refused(239, "0/", "3/", 5, 239);
    change_refused(239, "0/", "-1/", 31, 239);
    change_refused(243, "0/", "", 31, 243);
    change_refused(266, "2/", "65/", 4, 266);
    change_refused(272, "1 1/", "2 1/", 33, 272);
    change_refused(268, "2 1/", "3 x/", 5, 268);
    change_refused(268, "2 1/", "2 3/", 5, 270);
    change_refused(268, "2 1/", "2  1/", 31, 270);
    change_refused(266, "2/2 1/1 1/", "3/1 0/0 0/1 0/", 33, 276);
    change_refused(266, "2/2 1/1 1/", "4/1 0/0 0/2 0/3 0/", 5, 280);
}

#[test]
fn operators() {
    change_refused(285, "7/", "8/", 31, 664);
    change_refused(285, "7/", "513/", 4, 285);
    change_refused(321, "1/0 1/", "2/0 1/0 1/", 33, 327);
    change_refused(321, "1/", "65/", 4, 321);
    change_refused(323, "0 1/", "2 1/", 33, 331);
    change_refused(327, "1/", "65/", 4, 327);
    change_refused(329, "0 2 -1 1/", "1 0 1 2 -1 1/", 32, 329);
    change_refused(329, "0 2 -1 1/", "1/", 31, 330);
    change_refused(329, "0 2 -1 1/", "0 2 3 1/", 5, 333);
    change_refused(329, "0 2 -1 1/", "0 2 -2 1/", 31, 334);
    change_refused(329, "0 2 -1 1/", "0 2 -1 -1/", 31, 336);
    change_refused(329, "0 2 -1 1/", "0 2 -1 3/", 5, 336);
    change_refused(329, "0 2 -1 1/", "0 3 -1 1/", 5, 331);
    let twice = "2/0 2 -1 1/0 2 0 1/";
    change_refused(327, "1/0 2 -1 1/", twice, 33, 340);
    let dear = changed(338, "2/", "1000001/");
    refused(&dear, 4, 338);
    refused(&[&dear[..41], b"0", &dear[42..]].concat(), 4, 338);
    change_refused(338, "2/", "1000001", 31, 345);
}

#[test]
fn axioms() {
    let rule = "1/begin_rule/1/0 0/1 0 1/end_rule/";
    change_refused(664, "0/", rule, 32, 664);
    change_refused(664, "0/", "1/", 32, 664);
    change_refused(664, "0/", "1", 31, 665);
    change_refused(664, "0/", "00/", 31, 665);
    change_refused(664, "0/", "0//", 31, 666);
}

/// Each number of text E with the separator that is not due, or with none.
#[test]
fn separators_before_numbers() {
    let declared = [54, 79, 82, 225, 239, 266, 268, 270, 285];
    let of_operator_0 = [321, 323, 325, 327, 329, 331, 333, 336, 338];
    for at in [&declared[..], &of_operator_0, &[664]].concat() {
        let (before, behind) = TEXT_E.split_at(at);
        let end = behind.iter().position(|byte| b" \n".contains(byte));
        let (_, behind) = behind.split_at(end.unwrap());
        let other = if behind[0] == b' ' { b"\n" } else { b" " };
        for number in ["0", "99", "18446744073709551616"] {
            let cut = [before, number.as_bytes()].concat();
            refused(&cut, 31, cut.len());
            refused(&[&cut[..], other, &behind[1..]].concat(), 31, cut.len());
            refused(&[&cut[..], b"x", behind].concat(), 31, cut.len());
        }
    }
}

#[test]
fn free_names() {
    let (name, behind) = (TEXT_E.split_at(71).0, &TEXT_E[78..]);
    for bytes in [&[][..], &[0, 13, 255], b"end_variable", b"-1"] {
        translated(&[name, bytes, behind].concat(), TASK_E);
    }
    let padded = |length: usize| [name, &vec![b'x'; length - 659], behind].concat();
    assert_eq!(padded(666).len(), 666);
    translated(&padded(65_536), TASK_E);
    refused(&padded(65_537), 4, 0);
    refused(&vec![b'x'; 70_000], 4, 0);
}

/// An effect that sets its own old value is a condition and an effect.
#[test]
fn an_effect_without_change() {
    let mut task = read_task(TASK_E).unwrap();
    let fact = Fact {
        variable: 2,
        value: 1,
    };
    task.actions[0].conditions.push(fact);
    let text = changed(329, "0 2 -1 1/", "0 2 1 1/");
    translated(&text, &write_task(&task));
}

/// 64 variables of 32 nameless values, start 31, a goal of 64 falling pairs,
/// and these operators.
fn largest(operators: &[String]) -> Vec<u8> {
    let variable = format!("begin_variable//-1/32/{}end_variable/", "/".repeat(32));
    let goal: String = (0..64).rev().map(|v| format!("{v} 0/")).collect();
    lines(&format!(
        "begin_version/3/end_version/begin_metric/1/end_metric/64/{}0/\
         begin_state/{}end_state/begin_goal/64/{goal}end_goal/{}/{}0/",
        variable.repeat(64),
        "31/".repeat(64),
        operators.len(),
        operators.concat()
    ))
}

fn largest_file(actions: Vec<Action>) -> Vec<u8> {
    write_task(&Task {
        variables: vec![
            Variable {
                size: 32,
                start: 31
            };
            64
        ],
        goal: facts(0),
        actions,
        signer: 7,
    })
}

/// A fact of each of the 64 variables.
fn facts(value: u16) -> Vec<Fact> {
    (0..64).map(|variable| Fact { variable, value }).collect()
}

fn operator(prevail: &[String], effects: &[String], cost: u32) -> String {
    format!(
        "begin_operator//{}/{}{}/{}{cost}/end_operator/",
        prevail.len(),
        prevail.concat(),
        effects.len(),
        effects.concat()
    )
}

fn translated_in(text: &[u8], length: usize, file: &[u8], file_length: usize) {
    assert_eq!((text.len(), file.len()), (length, file_length));
    translated(text, file);
}

#[test]
fn many_operators() {
    let last = operator(&[], &["0 63 31 0/".into()], 1_000_000);
    let operators = vec![last; 513];
    let action = Action {
        cost: 1_000_000,
        conditions: facts(31)[63..].to_vec(),
        effects: facts(0)[63..].to_vec(),
    };
    let file = largest_file(vec![action; 512]);
    translated_in(&largest(&operators[..512]), 31_012, &file, 11_032);
    refused(&largest(&operators), 4, 4_894);
}

#[test]
fn many_effects() {
    let falling = |v| format!("0 {v} 31 0/");
    let effects: Vec<String> = (0..64).rev().map(falling).collect();
    let file = largest_file(vec![Action {
        cost: 1_000_000,
        conditions: facts(31),
        effects: facts(0),
    }]);
    let text = largest(&[operator(&[], &effects, 1_000_000)]);
    translated_in(&text, 5_570, &file, 1_316);
}

#[test]
fn many_prevail_conditions() {
    let falling = |v| format!("{v} 31/");
    let prevail: Vec<String> = (0..64).rev().map(falling).collect();
    let file = largest_file(vec![Action {
        cost: 0,
        conditions: facts(31),
        effects: vec![],
    }]);
    let text = largest(&[operator(&prevail, &[], 0)]);
    translated_in(&text, 5_308, &file, 1_060);
    let besides = ["0 0 -1 0/".into()];
    refused(&largest(&[operator(&prevail, &besides, 0)]), 33, 5_293);
}
