//! Level 5 of the library: the cases known by hand, and each buffer whole as
//! the reference leaves it.

use shortest::lent::{self as library, Answer};
use shortest::Outcome;
use shortest_check::buffers::Buffers;
use shortest_check::differential::{cases, Comparison, Lengths};
use shortest_check::reference::generate::{self, task_file, Random};
use shortest_check::turning::{self, TASK_E};

#[test]
fn each_case() {
    for case in turning::all() {
        case.check(library::reduce, library::plan);
    }
}

/// All buffers longer than needed, as long, and one after the other shorter by
/// one.
fn lengths(needed: Lengths) -> Vec<Lengths> {
    let mut all = vec![needed.map(|needed| needed + 5), needed];
    for place in (0..6).filter(|&place| needed[place] > 0) {
        let mut short = needed;
        short[place] -= 1;
        all.push(short);
    }
    all
}

#[test]
fn each_buffer_whole() {
    let mut comparison = Comparison::default();
    for case in turning::short() {
        let file = task_file(&case.task);
        for lengths in lengths(cases::needed(&case.task, 5)) {
            comparison.reduce(&file, 5, 7, lengths);
            comparison.plan(&file, 5, 7, lengths);
        }
        comparison.plan(&file, 4, 7, cases::needed(&case.task, 4));
    }
    assert_eq!(comparison.differences, 0);
    assert_eq!(comparison.numbers("reduce"), [0, 21]);
    assert_eq!(comparison.numbers("plan"), [0, 21, 24, 25]);
}

#[test]
fn the_longest_ladders_whole() {
    let mut comparison = Comparison::default();
    for task in [turning::long_ladder(), turning::wide_ladder()] {
        let lengths = [520, 580, 1_020, 900, 1_030, 40];
        comparison.plan(&task_file(&task), 5, 0x0403_0201, lengths);
    }
    assert_eq!(comparison.differences, 0);
    assert_eq!(comparison.numbers("plan"), [0, 25]);
}

/// The outcome of the planner on task E with buffers of these lengths, and
/// beside it that the reference leaves each buffer alike.
fn planned(level: u32, signer: u32, lengths: Lengths) -> Outcome {
    let mut comparison = Comparison::default();
    comparison.plan(TASK_E, level, signer, lengths);
    assert_eq!(comparison.differences, 0);
    let lent = &mut Buffers::long();
    lent.action_marks.truncate(lengths[0]);
    lent.fact_marks.truncate(lengths[1]);
    lent.reduced.truncate(lengths[2]);
    lent.origin.truncate(lengths[3]);
    lent.table.truncate(lengths[4]);
    lent.plan.truncate(lengths[5]);
    let planned = lent.plan(library::plan, TASK_E, level, signer);
    if !planned.outcome.is_done() {
        assert_eq!(planned, Answer::from(planned.outcome));
    }
    planned.outcome
}

#[test]
fn buffers_of_task_e() {
    let needed = [7, 8, 52, 30, 2, 18];
    assert_eq!(planned(5, 7, needed), Outcome::DONE);
    for short in 0..6 {
        let mut lengths = needed;
        lengths[short] -= 1;
        let refused = Outcome::refused(21, needed[short]);
        assert_eq!(planned(5, 7, lengths), refused);
    }
}

#[test]
fn levels_of_the_planner() {
    let [wrong_level, wrong_signer] = [8, 7].map(|number| Outcome::refused(number, 0));
    for level in [0, 1, 2, 3, 6, u32::MAX] {
        for signer in [0, 7] {
            assert_eq!(planned(level, signer, [0; 6]), wrong_level);
            assert_eq!(planned(level, signer, [100; 6]), wrong_level);
        }
    }
    for level in [4, 5] {
        assert_eq!(planned(level, 0, [0; 6]), wrong_signer);
        assert_eq!(planned(level, 0, [100; 6]), wrong_signer);
        assert_eq!(planned(level, 7, [100; 6]), Outcome::DONE);
    }
}

#[test]
fn a_broken_file_first_of_all() {
    let lent = &mut Buffers::long();
    let broken = &TASK_E[..100];
    for level in [0, 3, 4, 5, 6] {
        let refused = Answer::from(Outcome::refused(1, 96));
        for signer in [0, 7] {
            assert_eq!(lent.plan(library::plan, broken, level, signer), refused);
            assert_eq!(lent.reduce(library::reduce, broken, level, signer), refused);
        }
    }
}

#[test]
fn levels_of_reduction_and_marking() {
    let lent = &mut Buffers::long();
    let refused = Answer::from(Outcome::refused(8, 0));
    for level in [0, 6, u32::MAX] {
        assert_eq!(lent.reduce(library::reduce, TASK_E, level, 0), refused);
    }
    for level in [0, 5, 6, u32::MAX] {
        assert_eq!(lent.mark(library::mark, TASK_E, level), refused);
    }
    let turns = [1, 2, 3, 4, 5].map(|level| {
        let reduced = lent.reduce(library::reduce, TASK_E, level, 7);
        assert!(reduced.outcome.is_done());
        reduced.turns
    });
    assert_eq!(turns, [0, 0, 0, 0, 3]);
}

/// Tasks that take turns, with buffers as needed and one after the other
/// shorter by one.
#[test]
fn generated_tasks() {
    let mut comparison = Comparison::default();
    for seed in 0..300 {
        let random = &mut Random::new(seed);
        for task in [generate::shaken_ladder(random), generate::waiting(random)] {
            let file = task_file(&task);
            for lengths in lengths(cases::needed(&task, 5)) {
                comparison.reduce(&file, 5, random.signer(), lengths);
                comparison.plan(&file, 5, random.signer(), lengths);
            }
        }
    }
    assert_eq!(comparison.differences, 0);
    assert_eq!(comparison.numbers("reduce"), [0, 21]);
    assert_eq!(comparison.numbers("plan"), [0, 21, 24]);
}
