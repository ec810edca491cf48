//! Within reactive.rs.

use super::ChargeHistory;
use crate::format::Written;

impl Written for ChargeHistory {
    /// The last charge, the one before or none, the last current.
    fn written(&self) -> String {
        [self.q_prev.written(), self.q_prev2.written(), self.i_prev.written()].join("/")
    }
}
