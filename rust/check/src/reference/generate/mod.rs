//! Random accepted tasks, origins and plans, texts of tasks, and damage to
//! files and texts. The same seed gives the same.

mod files;
mod hard;
mod ladders;
mod large;
mod random;
mod shaped;
mod small;
mod texts;
mod varied;

use super::files::Task;

pub use super::files::{
    write_origin as origin_file, write_plan as plan_file, write_task as task_file,
};
pub use files::{byte_changed, cut, damaged, fields_exchanged, lengthened, origin, plan};
pub use hard::{
    counter_behind_dear_actions, coverers_lost, crowded, crowded_counter, crowded_with,
    crowded_without_plan,
};
pub use ladders::{ladder, renumbered, shaken_ladder, waiting};
pub use large::{few_kept, largest, largest_searched};
pub use random::Random;
pub use shaped::{chain, counter, counter_of, switches};
pub use small::{many_alike, small, small_with_plan};
pub use texts::{damaged_text, printed, text};
pub use varied::varied;

/// Tasks of one make.
pub type Family = fn(&mut Random) -> Task;

/// The last two have the largest files.
pub const FAMILIES: [Family; 12] = [
    small,
    small_with_plan,
    varied,
    shaken_ladder,
    waiting,
    chain,
    many_alike,
    switches,
    counter,
    few_kept,
    largest_searched,
    largest,
];

/// So many tasks of each family, by their seeds from 0 on.
pub fn for_all(families: &[(Family, u64)], mut check: impl FnMut(&Task)) {
    for (family, seeds) in families {
        for seed in 0..*seeds {
            check(&family(&mut Random::new(seed)));
        }
    }
}

/// A task of any of the families, the large ones rarely.
pub fn any(random: &mut Random) -> Task {
    match random.below(100) {
        0..10 => small(random),
        10..20 => varied(random),
        20..45 => small_with_plan(random),
        45..55 => shaken_ladder(random),
        55..60 => waiting(random),
        60..70 => chain(random),
        70..76 => many_alike(random),
        76..82 => switches(random),
        82..90 => counter(random),
        90..97 => few_kept(random),
        97..99 => largest_searched(random),
        _ => largest(random),
    }
}
