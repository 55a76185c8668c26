//! Why the comparison stops before its end.

/// A difference was found, or the comparison can't be made. The two have different exit statuses: tests/mistakes.sh looks for
/// differences, and a missing file must not be taken for one.
#[derive(Debug)]
pub enum Stop {
    /// The two programs, or both and a paper, differ: exit status 1.
    Difference(String),
    /// A setting or a file is at fault, or cases aren't what they should be: exit status 2.
    Error(String),
}

/// What the comparing functions report as a text is a difference; an error is made by its name.
impl From<String> for Stop {
    fn from(difference: String) -> Stop {
        Stop::Difference(difference)
    }
}

impl Stop {
    /// The same, with the part that stopped.
    pub fn in_part(self, part: &str) -> Stop {
        match self {
            Stop::Difference(what) => Stop::Difference(format!("{part}: DIFFERENCE\n{what}")),
            Stop::Error(what) => Stop::Error(format!("{part}: {what}")),
        }
    }
}
