//! How often the library was called.

/// How often the library was called.
#[derive(Clone, Copy, Debug, Default, PartialEq, Eq)]
pub struct Calls {
    /// For steps.
    pub steps: u64,
    /// For copies of a session over another.
    pub copies: u64,
    /// Of these, copies of the start, from which the steps were made again.
    pub replays: u64,
}

impl std::ops::Add for Calls {
    type Output = Calls;

    fn add(self, other: Calls) -> Calls {
        Calls {
            steps: self.steps + other.steps,
            copies: self.copies + other.copies,
            replays: self.replays + other.replays,
        }
    }
}
