//! Stands for the crate's macros. Only `try_cf!` is used by the sources.

/// Leaves the function with the answer where the answer says to stop.
macro_rules! try_cf {
    ($answer:expr) => {
        let answer = $answer;
        if answer.should_break() {
            return answer;
        }
    };
}
