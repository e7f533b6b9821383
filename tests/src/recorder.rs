//! Calls that follow what is pending: each is run on the second implementation, and recorded with its answer.

use crate::listing::Listing;
use crate::simulator::Simulator;
use std::ops::RangeInclusive;

/// Keeps no item: none has number 0.
pub const NONE: RangeInclusive<u64> = 0..=0;

/// Calls and answers so far, each also run on the second implementation, whose pending items are followed.
#[derive(Default)]
pub struct Recorder {
    pub simulator: Simulator,
    pub listing: Listing,
}

impl Recorder {
    /// After these calls, which are answered as written.
    pub fn after(listing: &[(String, String)]) -> Self {
        let mut recorder = Recorder::default();
        for (call, answer) in listing {
            assert_eq!(&recorder.call(call), answer, "{call}");
        }
        recorder
    }

    pub fn call(&mut self, call: impl Into<String>) -> String {
        let call = call.into();
        let answer = self.simulator.call(call.as_bytes()).join("\n");
        self.listing.push((call, answer.clone()));
        answer
    }

    /// Steps the session's lowest item that is no wait, but none of those kept, until there is none; the last answer.
    pub fn drive(&mut self, session: u64, kept: RangeInclusive<u64>) -> String {
        let mut answer = String::new();
        while let Some(item) = self.simulator.pending(session).0.into_iter().find(|item| !kept.contains(item)) {
            answer = self.call(format!("(step {session} {item})"));
        }
        answer
    }
}
