//! The library against the reference.

use shortest::lent::{self as library, Answer};
use shortest_check::differential::{cases, pages, texts, Comparison};
use shortest_check::reference;
use shortest_check::reference::generate::{self, Random};

fn for_seeds(count: u64, mut compare: impl FnMut(&mut Comparison, &mut Random)) -> Comparison {
    let mut comparison = Comparison::default();
    for seed in 0..count {
        compare(&mut comparison, &mut Random::new(seed));
    }
    assert_eq!(comparison.differences, 0);
    comparison
}

/// The outcomes of texts of the translator.
const OF_TEXTS: [u32; 8] = [0, 4, 5, 7, 21, 31, 32, 33];

#[test]
fn mixed_cases_with_every_outcome() {
    let comparison = for_seeds(100, cases::any);
    assert!(comparison.calls > 100_000 && comparison.many_turns > 100);
    let input = [1, 2, 3, 4, 5, 6, 7];
    for (call, others) in [
        ("check_task", &[][..]),
        ("check_origin", &[]),
        ("check_plan", &[22, 23]),
        ("mark", &[8, 21]),
        ("reduce", &[8, 21]),
        ("plan", &[8, 21, 24, 25]),
        ("sheet", &[21, 22, 23]),
    ] {
        let expected = [&[0], &input[..], others].concat();
        assert_eq!(comparison.numbers(call), expected, "{call}");
    }
    assert_eq!(comparison.numbers("translate"), OF_TEXTS);
}

#[test]
fn every_length_at_small_sizes() {
    for_seeds(40, |comparison, random| {
        let task = generate::small_with_plan(random);
        cases::every_length(comparison, random, &task);
        pages::every_length(comparison, random, &task);
        texts::every_length(comparison, random, &task);
    });
}

#[test]
fn every_byte_of_small_files() {
    for_seeds(3, |comparison, random| {
        let task = generate::small_with_plan(random);
        cases::every_byte(comparison, random, &task);
    });
}

#[test]
fn every_byte_of_small_texts() {
    for_seeds(2, |comparison, random| {
        let task = generate::small(random);
        texts::every_byte(comparison, random, &task);
    });
}

#[test]
fn each_family_around_its_lengths() {
    let families = [
        generate::shaken_ladder,
        generate::waiting,
        generate::chain,
        generate::many_alike,
        generate::switches,
        generate::counter,
        generate::few_kept,
        generate::largest_searched,
        generate::largest,
    ];
    for_seeds(4, |comparison, random| {
        for family in families {
            let task = family(random);
            cases::lengths_around(comparison, random, &task);
        }
    });
}

#[test]
fn texts_of_each_family() {
    let comparison = for_seeds(30, |comparison, random| {
        for family in generate::FAMILIES {
            let task = family(random);
            texts::lengths_around(comparison, random, &task);
            texts::damaged(comparison, random, &task);
        }
    });
    assert_eq!(comparison.numbers("translate"), OF_TEXTS);
}

#[test]
fn the_longest_and_dearest_plan() {
    let mut task = generate::counter_of(&[2; 12], 1);
    for action in &mut task.actions {
        action.cost = 1_000_000;
    }
    for_seeds(1, |comparison, random| {
        cases::lengths_around(comparison, random, &task);
    });
}

#[test]
fn files_at_the_limit() {
    for_seeds(2, |comparison, random| {
        let file = generate::task_file(&generate::largest(random));
        let accepted = generate::task_file(&generate::small(random));
        let plan = vec![0; 65_536];
        for file in [&file[..], &[&file[..], &[0]].concat(), &vec![0; 70_000]] {
            cases::task_file_as_it_is(comparison, random, file);
            pages::as_it_is(comparison, random, file, &plan);
            pages::as_it_is(comparison, random, &plan, file);
            pages::as_it_is(comparison, random, &accepted, file);
            texts::as_it_is(comparison, random, file);
        }
    });
}

#[test]
fn empty_slices() {
    let task = generate::task_file(&reference::files::Task {
        variables: vec![],
        goal: vec![],
        actions: vec![],
        signer: 1,
    });
    for file in [&[][..], &task] {
        let outcome = Answer::from(reference::check_task(file));
        assert_eq!(library::check_task(file), outcome);
        let outcome = Answer::from(reference::check_origin(file));
        assert_eq!(library::check_origin(file), outcome);
        assert_eq!(
            library::check_plan(file, &[]),
            reference::check_plan(file, &[])
        );
        assert_eq!(
            library::sheet(file, &[], &mut []),
            reference::sheet(file, &[], &mut [])
        );
        assert_eq!(
            library::translate(file, 1, &mut []),
            reference::translate(file, 1, &mut [])
        );
        assert_eq!(
            library::mark(file, 4, &mut [], &mut []),
            reference::mark(file, 4, &mut [], &mut [])
        );
        assert_eq!(
            library::reduce(file, 4, 1, &mut [], &mut [], &mut [], &mut []),
            reference::reduce(file, 4, 1, &mut [], &mut [], &mut [], &mut [])
        );
        assert_eq!(
            library::plan(
                file,
                4,
                1,
                &mut [],
                &mut [],
                &mut [],
                &mut [],
                &mut [],
                &mut []
            ),
            reference::plan(
                file,
                4,
                1,
                &mut [],
                &mut [],
                &mut [],
                &mut [],
                &mut [],
                &mut []
            )
        );
    }
}
