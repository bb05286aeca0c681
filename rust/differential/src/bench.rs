//! The bench on which calls are compared: its random source, and its record.

use crate::compare::{compare, Call, Memory, Mismatch, Outcome};
use crate::coverage::Coverage;
use crate::random::Random;

/// What a case draws from and what it reports to.
pub struct Bench<'a> {
    pub random: Random,
    pub coverage: &'a mut Coverage,
}

impl Bench<'_> {
    pub fn compare(&mut self, call: &Call, memory: Memory) -> Result<Outcome, Mismatch> {
        let before = memory.tally;
        let outcome = compare(call, memory)?;
        self.coverage.record(call.name, &outcome);
        if let Some(outputs) = call.name.built() {
            self.coverage.record_graph(&call.bytes, outputs, &outcome);
        }
        self.coverage.stakes.record(call, before, &outcome);
        self.coverage.forms.record(call, &outcome);
        self.coverage.orders.record(call, &outcome);
        Ok(outcome)
    }

    /// A length for a buffer that needs this one: enough, just enough or too short.
    pub fn length(&mut self, needed: usize) -> usize {
        match self.random.below(16) {
            0 => needed.saturating_sub(1),
            1 if self.random.coin() => self.random.within(0..=needed),
            2..=6 => needed,
            _ => needed + self.random.below(20),
        }
    }
}
