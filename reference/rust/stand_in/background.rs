//! Stand-in for flushes and compactions: there is never work to do.

use std::sync::MutexGuard;

use super::{Shared, State};
use crate::error::Result;

pub(super) fn run(_shared: &Shared) {}

pub(super) fn run_one<'a>(
    _shared: &'a Shared,
    st: MutexGuard<'a, State>,
) -> (MutexGuard<'a, State>, Result<bool>) {
    (st, Ok(false))
}
