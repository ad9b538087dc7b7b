//! Stand-in for compaction: without tables none is wanted.

use super::State;

impl State {
    pub(super) fn compaction_wanted(&self) -> bool {
        false
    }
}
