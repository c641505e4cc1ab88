//! Added to the sources (docs/PLAIN.md, "What is added"): hosts as values.
use crate::generated::host::{Host, Message, Notice, number, result};
use core::fmt;

impl Clone for Host {
    fn clone(&self) -> Host {
        Host {
            room: self.room.clone(),
            ..*self
        }
    }
}

/// Bytes past the end of the log are not compared.
impl PartialEq for Host {
    fn eq(&self, other: &Host) -> bool {
        let parts = |host: &Host| {
            let rules = (host.may_cancel, host.late_forfeits);
            (host.one, host.two, host.ending, host.draw, rules)
        };
        self.room == other.room && parts(self) == parts(other)
    }
}

impl Eq for Host {}

/// The number of the current pair and the result.
impl fmt::Debug for Host {
    fn fmt(&self, f: &mut fmt::Formatter<'_>) -> fmt::Result {
        f.debug_struct("Host")
            .field("number", &number(self))
            .field("result", &result(self))
            .finish_non_exhaustive()
    }
}

impl fmt::Debug for Message {
    fn fmt(&self, f: &mut fmt::Formatter<'_>) -> fmt::Result {
        f.debug_struct("Message")
            .field("number", &self.number)
            .field("log_length", &self.log_length)
            .finish_non_exhaustive()
    }
}

impl fmt::Debug for Notice {
    fn fmt(&self, f: &mut fmt::Formatter<'_>) -> fmt::Result {
        f.debug_struct("Notice")
            .field("number", &self.number)
            .field("log_length", &self.log_length)
            .finish_non_exhaustive()
    }
}
