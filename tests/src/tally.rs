//! How often each answer was reached.

use std::collections::BTreeMap;

use crate::zones::Answer;

/// "accepted", or the number of the refusal.
fn outcome(answer: Answer) -> String {
    match answer {
        Answer::Accepted(_) => "accepted".to_string(),
        Answer::Refused { number, .. } => format!("{number}"),
    }
}

/// Counts by name.
#[derive(Default)]
pub struct Tally(BTreeMap<String, usize>);

impl Tally {
    pub fn note(&mut self, what: String) {
        *self.0.entry(what).or_default() += 1;
    }

    pub fn note_answer(&mut self, answer: Answer) {
        self.note(outcome(answer));
    }

    /// The answer of one of several calls.
    pub fn note_call(&mut self, call: &str, answer: Answer) {
        self.note(format!("{call} {}", outcome(answer)));
    }

    /// Seen only with --nocapture.
    pub fn print(&self, title: &str) {
        let counts: Vec<String> = self
            .0
            .iter()
            .map(|(what, n)| format!("{what}: {n}"))
            .collect();
        println!("{title}: {}", counts.join(", "));
    }

    pub fn times(&self, what: &str) -> usize {
        self.0.get(what).copied().unwrap_or(0)
    }

    #[track_caller]
    pub fn reached(&self, what: &str, least: usize) {
        let times = self.times(what);
        assert!(times >= least, "{what} reached {times} times, not {least}");
    }
}
