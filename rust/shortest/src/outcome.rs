use std::error::Error;
use std::fmt::{self, Display, Formatter};

/// How a call ended: number, file and place.
#[derive(Clone, Copy, Debug, Default, PartialEq, Eq)]
pub struct Outcome {
    /// 0 for done, any other for a refusal (docs/FORMAT.md lists them).
    pub number: u32,
    /// 1 where the place is an offset in the second file handed in, else 0.
    pub file: u32,
    /// An offset in a file or in a text; of 21 the number of elements that
    /// the buffer needs; of 22 and 23 a step.
    pub place: usize,
}

impl Outcome {
    pub const DONE: Outcome = Outcome {
        number: 0,
        file: 0,
        place: 0,
    };

    /// A refusal at a place that is none of a second file.
    pub fn refused(number: u32, place: usize) -> Outcome {
        Outcome {
            number,
            file: 0,
            place,
        }
    }

    /// The same refusal, met in the second file.
    pub fn in_second_file(self) -> Outcome {
        Outcome { file: 1, ..self }
    }

    pub fn is_done(self) -> bool {
        self.number == 0
    }
}

impl Display for Outcome {
    fn fmt(&self, f: &mut Formatter) -> fmt::Result {
        let Outcome {
            number,
            file,
            place,
        } = self;
        match (number, file) {
            (0, _) => write!(f, "done"),
            (_, 0) => write!(f, "refused {number} at {place}"),
            _ => write!(f, "refused {number} at {place} of the second file"),
        }
    }
}

/// The calls of this package give no error that is done.
impl Error for Outcome {}
