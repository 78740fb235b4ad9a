//! The numbers that include/shortest.h gives are those of the Rust side.

use shortest::lent::{self, Answer};

const HEADER: &str = include_str!("../../../include/shortest.h");
const IN_RUST: &str = include_str!("../src/c.rs");

fn given(name: &str) -> usize {
    let lines = HEADER.lines().map(str::trim_start);
    let mut numbers = lines.filter_map(|line| line.strip_prefix(name)?.strip_prefix(" = "));
    let number = numbers.next().unwrap().trim_end_matches(',');
    number.parse().unwrap()
}

#[test]
fn the_longest_results() {
    assert_eq!(given("SHORTEST_MOST_ACTIONS"), lent::MOST_ACTIONS);
    assert_eq!(given("SHORTEST_MOST_FACTS"), lent::MOST_FACTS);
    assert_eq!(given("SHORTEST_MOST_REDUCED"), lent::MOST_REDUCED);
    assert_eq!(given("SHORTEST_MOST_ORIGIN"), lent::MOST_ORIGIN);
    assert_eq!(given("SHORTEST_MOST_ENTRIES"), lent::MOST_ENTRIES);
    assert_eq!(given("SHORTEST_MOST_PLAN"), lent::MOST_PLAN);
    assert_eq!(given("SHORTEST_MOST_PAGE"), lent::MOST_PAGE);
    assert_eq!(given("SHORTEST_MOST_TASK"), lent::MOST_TASK);
}

/// The names of the enum of places, in order.
fn places() -> Vec<&'static str> {
    let (_, behind) = HEADER.split_once("enum {\n").unwrap();
    let (names, _) = behind.split_once("\n};").unwrap();
    names.split(',').map(str::trim).collect()
}

#[test]
fn the_places_of_the_numbers() {
    let numbers = std::array::from_fn(|place| 100 + place as u64);
    let answer = Answer::from(numbers);
    let by_name = [
        ("SHORTEST_NUMBER", answer.outcome.number as usize),
        ("SHORTEST_FILE", answer.outcome.file as usize),
        ("SHORTEST_PLACE", answer.outcome.place),
        ("SHORTEST_ROUNDS", answer.rounds),
        ("SHORTEST_COST", answer.cost as usize),
        ("SHORTEST_STEPS", answer.steps),
        ("SHORTEST_ACTIONS", answer.action_marks),
        ("SHORTEST_FACTS", answer.fact_marks),
        ("SHORTEST_REDUCED", answer.reduced),
        ("SHORTEST_ORIGIN", answer.origin),
        ("SHORTEST_TABLE", answer.table),
        ("SHORTEST_PLAN", answer.plan),
        ("SHORTEST_PAGE", answer.page),
        ("SHORTEST_TASK", answer.task),
        ("SHORTEST_TURNS", answer.turns),
        ("SHORTEST_LIST", answer.list),
        ("SHORTEST_GOAL", answer.goal),
        ("SHORTEST_ENTRIES", answer.entries),
        ("SHORTEST_NUMBERS", 100 + lent::NUMBERS),
    ];
    let expected: Vec<_> = places().into_iter().zip(100..).collect();
    assert_eq!(by_name[..], expected);
}

/// The parameters of a call, by their text up to the next `)`.
fn parameters(text: &'static str, call: &str) -> Vec<&'static str> {
    let (_, behind) = text.split_once(call).unwrap();
    let (all, _) = behind.split_once(')').unwrap();
    all.split(',').map(str::trim).collect()
}

/// Two of one type stand in the same order.
#[test]
fn the_numbers_handed_in() {
    for (call, numbers) in [
        ("shortest_mark(", &["level"][..]),
        ("shortest_reduce(", &["level", "signer"]),
        ("shortest_plan(", &["level", "signer"]),
        ("shortest_translate(", &["signer"]),
    ] {
        let in_c = parameters(HEADER, &format!("void {call}"));
        let in_c = in_c
            .iter()
            .filter_map(|word| word.strip_prefix("uint32_t "));
        assert_eq!(in_c.collect::<Vec<_>>(), numbers, "{call}");
        let in_rust = parameters(IN_RUST, &format!("fn {call}"));
        let in_rust = in_rust.iter().filter_map(|word| word.strip_suffix(": u32"));
        assert_eq!(in_rust.collect::<Vec<_>>(), numbers, "{call}");
    }
}
