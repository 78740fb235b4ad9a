//! The library against the reference: each call made on both, with equal
//! buffers, and all that they hand back compared.

pub mod cases;
pub mod pages;
pub mod texts;

use std::collections::BTreeMap;

use shortest::lent::{self as library, Answer};
use shortest::{Entry, Outcome};

use crate::buffers::{Mark, Plan, Reduce, Sheet, Translate};
use crate::reference;

/// Lengths lent: action marks, fact marks, reduced, origin, table, plan. A
/// call takes as many of the first as it has buffers.
pub type Lengths = [usize; 6];

/// Counts of the calls compared so far. The first differences are printed.
#[derive(Debug, Default)]
pub struct Comparison {
    pub calls: u64,
    /// Reductions and plans in 4 turns or more.
    pub many_turns: u64,
    pub differences: u64,
    /// How often each call ended with each number.
    pub outcomes: BTreeMap<(&'static str, u32), u64>,
}

impl Comparison {
    pub fn check_task(&mut self, file: &[u8]) {
        let expected = Answer::from(reference::check_task(file));
        let found = library::check_task(file);
        self.count("check_task", expected.outcome, expected == found, || {
            format!("{expected:?}\n{found:?}\n{}", hex(file))
        });
    }

    pub fn check_origin(&mut self, file: &[u8]) {
        let expected = Answer::from(reference::check_origin(file));
        let found = library::check_origin(file);
        self.count("check_origin", expected.outcome, expected == found, || {
            format!("{expected:?}\n{found:?}\n{}", hex(file))
        });
    }

    pub fn check_plan(&mut self, task: &[u8], plan: &[u8]) {
        let expected = reference::check_plan(task, plan);
        let found = library::check_plan(task, plan);
        self.count("check_plan", expected.outcome, expected == found, || {
            format!("{expected:?}\n{found:?}\n{}\n{}", hex(task), hex(plan))
        });
    }

    pub fn mark(&mut self, task: &[u8], level: u32, lengths: Lengths) {
        let run = |mark: Mark| {
            let mut lent = Buffers::of(lengths, 2);
            let [actions, facts, ..] = &mut lent.bytes;
            let marked = mark(task, level, actions.lend(), facts.lend());
            (marked, lent)
        };
        let expected = run(reference::mark);
        let found = run(library::mark);
        self.count("mark", expected.0.outcome, expected == found, || {
            let answers = format!("{:?}\n{:?}", expected.0, found.0);
            let buffers = expected.1.difference(&found.1);
            format!(
                "{answers}\n{buffers}\nlevel {level}, {lengths:?}\n{}",
                hex(task)
            )
        });
    }

    pub fn reduce(&mut self, task: &[u8], level: u32, signer: u32, lengths: Lengths) {
        let run = |reduce: Reduce| {
            let mut lent = Buffers::of(lengths, 4);
            let [actions, facts, reduced, origin, _] = &mut lent.bytes;
            let answer = reduce(
                task,
                level,
                signer,
                actions.lend(),
                facts.lend(),
                reduced.lend(),
                origin.lend(),
            );
            (answer, lent)
        };
        let expected = run(reference::reduce);
        let found = run(library::reduce);
        self.many_turns += u64::from(expected.0.turns >= 4);
        self.count("reduce", expected.0.outcome, expected == found, || {
            let answers = format!("{:?}\n{:?}", expected.0, found.0);
            let buffers = expected.1.difference(&found.1);
            format!(
                "{answers}\n{buffers}\nlevel {level}, signer {signer}, {lengths:?}\n{}",
                hex(task)
            )
        });
    }

    pub fn plan(&mut self, task: &[u8], level: u32, signer: u32, lengths: Lengths) {
        let run = |plan: Plan| {
            let mut lent = Buffers::of(lengths, 6);
            let [actions, facts, reduced, origin, plan_file] = &mut lent.bytes;
            let planned = plan(
                task,
                level,
                signer,
                actions.lend(),
                facts.lend(),
                reduced.lend(),
                origin.lend(),
                lent.table.lend(),
                plan_file.lend(),
            );
            (planned, lent)
        };
        let expected = run(reference::plan);
        let found = run(library::plan);
        self.many_turns += u64::from(expected.0.turns >= 4);
        self.count("plan", expected.0.outcome, expected == found, || {
            let answers = format!("{:?}\n{:?}", expected.0, found.0);
            let buffers = expected.1.difference(&found.1);
            format!(
                "{answers}\n{buffers}\nlevel {level}, signer {signer}, {lengths:?}\n{}",
                hex(task)
            )
        });
    }

    pub fn sheet(&mut self, task: &[u8], plan: &[u8], length: usize) {
        let run = |sheet: Sheet| {
            let mut page = Lent::of(length, byte);
            let answer = sheet(task, plan, page.lend());
            (answer, page)
        };
        let expected = run(reference::sheet);
        let found = run(library::sheet);
        self.count("sheet", expected.0.outcome, expected == found, || {
            let answers = format!("{:?}\n{:?}", expected.0, found.0);
            let page = first_difference("page", &expected.1 .0, &found.1 .0).unwrap_or_default();
            format!(
                "{answers}\n{page}\nlength {length}\n{}\n{}",
                hex(task),
                hex(plan)
            )
        });
    }

    pub fn translate(&mut self, text: &[u8], signer: u32, length: usize) {
        let run = |translate: Translate| {
            let mut file = Lent::of(length, byte);
            let answer = translate(text, signer, file.lend());
            (answer, file)
        };
        let expected = run(reference::translate);
        let found = run(library::translate);
        self.count("translate", expected.0.outcome, expected == found, || {
            let answers = format!("{:?}\n{:?}", expected.0, found.0);
            let file = first_difference("file", &expected.1 .0, &found.1 .0).unwrap_or_default();
            format!(
                "{answers}\n{file}\nsigner {signer}, length {length}\n{}",
                text.escape_ascii()
            )
        });
    }

    fn count(
        &mut self,
        call: &'static str,
        outcome: Outcome,
        equal: bool,
        describe: impl FnOnce() -> String,
    ) {
        self.calls += 1;
        *self.outcomes.entry((call, outcome.number)).or_default() += 1;
        if !equal {
            self.differences += 1;
            if self.differences <= 10 {
                eprintln!("{call}, the reference first:\n{}\n", describe());
            }
        }
    }

    /// The numbers that a call ended with.
    pub fn numbers(&self, call: &str) -> Vec<u32> {
        let of_call = self.outcomes.keys().filter(|(name, _)| *name == call);
        of_call.map(|&(_, number)| number).collect()
    }
}

/// A list filled with a pattern, of which all but `GUARD` elements at either
/// end are lent.
#[derive(PartialEq)]
struct Lent<T>(Vec<T>);

const GUARD: usize = 16;

impl<T> Lent<T> {
    fn of(length: usize, pattern: fn(usize) -> T) -> Lent<T> {
        Lent((0..length + 2 * GUARD).map(pattern).collect())
    }

    fn lend(&mut self) -> &mut [T] {
        let end = self.0.len() - GUARD;
        &mut self.0[GUARD..end]
    }
}

/// No mark and no character of a page is such a byte.
fn byte(place: usize) -> u8 {
    0x80 | (place % 127) as u8
}

/// No cost to the goal is such a number.
fn entry(place: usize) -> Entry {
    Entry::new(1 << 60 | place as u64, 0xA000 | place as u16)
}

/// The five buffers of bytes, and the table.
#[derive(PartialEq)]
struct Buffers {
    bytes: [Lent<u8>; 5],
    table: Lent<Entry>,
}

impl Buffers {
    /// The first `count` buffers in these lengths, the others empty.
    fn of(lengths: Lengths, count: usize) -> Buffers {
        let length = |place: usize| if place < count { lengths[place] } else { 0 };
        Buffers {
            bytes: [0, 1, 2, 3, 5].map(|place| Lent::of(length(place), byte)),
            table: Lent::of(length(4), entry),
        }
    }

    /// Each buffer that differs, with the first place where it does.
    fn difference(&self, other: &Buffers) -> String {
        let mut found = Vec::new();
        let names = ["action marks", "fact marks", "reduced", "origin", "plan"];
        for (name, (one, other)) in names.iter().zip(self.bytes.iter().zip(&other.bytes)) {
            found.extend(first_difference(name, &one.0, &other.0));
        }
        found.extend(first_difference("table", &self.table.0, &other.table.0));
        found.join("\n")
    }
}

fn first_difference<T: PartialEq + std::fmt::Debug>(
    name: &str,
    one: &[T],
    other: &[T],
) -> Option<String> {
    let place = (0..one.len()).find(|&place| one[place] != other[place])?;
    let (one, other) = (&one[place], &other[place]);
    let place = place as isize - GUARD as isize;
    Some(format!("{name} at {place}: {one:?}, {other:?}"))
}

fn hex(file: &[u8]) -> String {
    file.iter().map(|byte| format!("{byte:02X}")).collect()
}
