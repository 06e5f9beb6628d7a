//! What a typed call answers, in the words of a line.

use tracehost::Error;

/// The reply's words after the user and the number, or the error.
pub type Answer = Result<String, Error>;

pub fn words_of(answer: Answer) -> String {
    match answer {
        Ok(words) => words,
        Err(Error::Held) => "held".to_string(),
        Err(Error::Errno(errno)) => format!("error {} {}", errno.name(), errno.number()),
        Err(error) => format!("{error:?}"),
    }
}
