//! What the texts of the translator are compared on.

use super::cases::{around, for_every_byte, SIGNERS};
use super::Comparison;
use crate::reference::files::Task;
use crate::reference::generate::{self, task_file, Random};

/// Every length of the file up to one past the needed one.
pub fn every_length(comparison: &mut Comparison, random: &mut Random, task: &Task) {
    lengths(comparison, random, task, |needed| {
        (0..=needed + 1).collect()
    });
}

/// The same around the needed length.
pub fn lengths_around(comparison: &mut Comparison, random: &mut Random, task: &Task) {
    lengths(comparison, random, task, around);
}

fn lengths(
    comparison: &mut Comparison,
    random: &mut Random,
    task: &Task,
    tried: impl Fn(usize) -> Vec<usize>,
) {
    let (task, text) = generate::text(random, task);
    for length in tried(task_file(&task).len()) {
        for signer in [0, random.signer()] {
            comparison.translate(&text, signer, length);
        }
    }
}

/// With a file that is long enough, or one that may not be.
pub fn as_it_is(comparison: &mut Comparison, random: &mut Random, text: &[u8]) {
    let length = if random.chance(20) {
        random.below(text.len() + 1)
    } else {
        text.len() + random.below(20)
    };
    comparison.translate(text, random.one_of(&SIGNERS), length);
}

/// Texts of the task, whole, damaged once, and damaged on and on; the first may
/// give variables twice and be too long.
pub fn damaged(comparison: &mut Comparison, random: &mut Random, task: &Task) {
    let old_values = random.one_of(&[0, 90, 100]);
    let any = generate::printed(random, task, old_values);
    as_it_is(comparison, random, &any);
    let (_, mut text) = generate::text(random, task);
    for _ in 0..3 {
        let once = generate::damaged_text(random, &text);
        as_it_is(comparison, random, &once);
    }
    while random.chance(70) {
        text = generate::damaged_text(random, &text);
        as_it_is(comparison, random, &text);
    }
    as_it_is(comparison, random, &task_file(task));
}

/// Every byte of a text changed to every other value, every cut, and every
/// line deleted or doubled.
pub fn every_byte(comparison: &mut Comparison, random: &mut Random, task: &Task) {
    let (_, text) = generate::text(random, task);
    for_every_byte(&text, |text| as_it_is(comparison, random, text));
    for end in 0..=text.len() {
        as_it_is(comparison, random, &text[..end]);
    }
    let mut from = 0;
    for line in text.split_inclusive(|&byte| byte == b'\n') {
        let to = from + line.len();
        as_it_is(comparison, random, &[&text[..from], &text[to..]].concat());
        as_it_is(comparison, random, &[&text[..to], &text[from..]].concat());
        from = to;
    }
}
