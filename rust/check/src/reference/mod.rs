//! The specification, implemented a second time and on its own, to compare
//! the planner with. Plain rather than fast. The types of the answers are all
//! that it takes from the package of the library's calls.

pub mod files;
pub mod generate;
pub mod marking;
pub mod outcome;
pub mod plans;
pub mod reduction;
pub mod search;
pub mod sheet;
pub mod translator;
pub mod turns;

pub use files::{check_origin, check_task};
pub use marking::mark;
pub use plans::check_plan;
pub use reduction::reduce;
pub use search::plan;
pub use sheet::sheet;
pub use translator::translate;
