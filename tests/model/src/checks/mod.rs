//! The model's own checks, run by `cargo test`.

mod bytes;
mod format;
mod memory;
mod probes;
mod refusals;
mod rules;
mod starred;
mod stored;
mod texts;
mod walks;
mod yards;

use crate::call::Call;
use crate::lists;
use crate::stored::accepted_calls;

/// A call of each code on numbers that is accepted, its room an exact fit.
fn accepted() -> Vec<Call> {
    [accepted_calls(), vec![lists::accepted()]].concat()
}
