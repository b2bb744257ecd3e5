//! The first thing that the two sides show differently.

use std::fmt::Debug;

use jollanqe::{Refused, RunError};

#[derive(Clone, Debug)]
pub struct Difference {
    pub what: &'static str,
    pub ours: String,
    pub rust: String,
}

/// Nothing if the two are equal.
pub fn same<T: PartialEq + Debug>(what: &'static str, ours: T, rust: T) -> Result<(), Difference> {
    if ours == rust {
        return Ok(());
    }
    Err(Difference {
        what,
        ours: format!("{ours:?}"),
        rust: format!("{rust:?}"),
    })
}

/// A call that the Rust took and the library refused.
impl From<Refused> for Difference {
    fn from(refused: Refused) -> Difference {
        RunError::Refused(refused).into()
    }
}

impl From<RunError> for Difference {
    fn from(error: RunError) -> Difference {
        Difference {
            what: "refusal",
            ours: error.to_string(),
            rust: "none".to_string(),
        }
    }
}
