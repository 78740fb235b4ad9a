//! Compares the library with the reference until a number of calls, and
//! prints how many differed: `differential [CALLS [FIRST SEED]]`.

use shortest_check::differential::{cases, Comparison};
use shortest_check::reference::generate::Random;

fn main() {
    let mut arguments = std::env::args().skip(1).map(|word| word.parse().unwrap());
    let calls: u64 = arguments.next().unwrap_or(1_000_000);
    let mut seed: u64 = arguments.next().unwrap_or(0);
    let mut comparison = Comparison::default();
    while comparison.calls < calls {
        cases::any(&mut comparison, &mut Random::new(seed));
        seed += 1;
    }
    for ((call, number), count) in &comparison.outcomes {
        println!("{call} {number}: {count}");
    }
    let Comparison {
        calls,
        differences,
        many_turns,
        ..
    } = comparison;
    println!("{calls} calls, {many_turns} in 4 turns or more, {differences} differences");
    assert_eq!(differences, 0);
}
