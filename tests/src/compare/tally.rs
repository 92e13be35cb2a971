//! How often each call gave each answer, so that a comparison shows that it tried them all.

use super::cases::METHODS;
use std::collections::BTreeMap;

/// An answer that came up less often was not tried.
const OFTEN: u64 = 50;

#[derive(Default)]
pub struct Tally {
    counts: BTreeMap<(&'static str, &'static str, u8), u64>,
}

/// The name of a refusal.
pub fn refused(number: u32) -> &'static str {
    #[rustfmt::skip]
    const NAMES: [&str; 17] = ["0", "1", "2", "3", "4", "5", "6", "7", "8", "9", "10", "11", "12", "13", "14", "15", "16"];
    NAMES[number as usize]
}

impl Tally {
    /// An answer of a call that knows no method.
    pub fn add(&mut self, call: &'static str, answer: &'static str) {
        self.add_by(0, call, answer);
    }

    /// An answer of a call on an array of this method, which may be none.
    pub fn add_by(&mut self, method: u8, call: &'static str, answer: &'static str) {
        *self.counts.entry((call, answer, method)).or_default() += 1;
    }

    /// How many calls there were, each of these answers among them often; or the answer that was not.
    pub fn of(&self, call: &str, answers: &str) -> Result<String, String> {
        self.often(call, answers, |_| true)?;
        let calls = self.counts.iter().filter(|((name, ..), _)| *name == call);
        Ok(format!(
            "{call} {}",
            calls.map(|(_, count)| count).sum::<u64>()
        ))
    }

    /// The same, each answer often by every method.
    pub fn of_each(&self, call: &str, answers: &str) -> Result<String, String> {
        self.of_some(&METHODS, call, answers)
    }

    /// The same, each answer often by each of these methods.
    pub fn of_some(&self, methods: &[u8], call: &str, answers: &str) -> Result<String, String> {
        for method in methods {
            self.often(call, answers, |by| by == *method)
                .map_err(|difference| format!("by method {method} {difference}"))?;
        }
        self.of(call, answers)
    }

    fn often(&self, call: &str, answers: &str, counts: impl Fn(u8) -> bool) -> Result<(), String> {
        for answer in answers.split(' ') {
            let found = self.counts.iter().filter(|((name, found, method), _)| {
                *name == call && *found == answer && counts(*method)
            });
            let count: u64 = found.map(|(_, count)| count).sum();
            if count < OFTEN {
                return Err(format!(
                    "{call} gave the answer {answer} only {count} times"
                ));
            }
        }
        Ok(())
    }
}
