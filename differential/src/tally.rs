//! How many calls were made, and how they were answered.

use crate::case::Call;
use girvotal::exported::SHORT_ANSWER;
use std::collections::{BTreeMap, BTreeSet};
use std::fmt;

/// Each call with the questions that it asks (docs/REFUSALS.md).
pub const QUESTIONS: [(&str, &[usize]); 7] = [
    ("check", &[1, 2, 3, 4, 5, 6, 7, 8, 9]),
    ("classify", &[1, 2, 3, 4, 5, 6, 7, 8, 9, 10, 11]),
    (
        "change",
        &[
            1, 2, 3, 4, 5, 6, 7, 8, 9, 10, 11, 12, 22, 23, 13, 14, 15, 18, 16, 17,
        ],
    ),
    ("lookup", &[1, 2, 3, 4, 5, 6, 7, 8, 9, 10, 13, 14, 15, 19]),
    ("list", &[1, 2, 3, 4, 5, 6, 7, 8, 9, 10, 12, 13, 14, 15, 19]),
    ("row", &[1, 2, 3, 4, 5, 6, 7, 8, 9, 10, 13, 14, 15, 19]),
    ("write", &[1, 2, 3, 4, 5, 6, 7, 8, 9, 10, 13, 14, 20]),
];

/// Counts of cases, of calls by name and number returned, and of what accepted ones did.
#[derive(Clone, Debug, Default, PartialEq, Eq)]
pub struct Tally {
    pub cases: usize,
    groups: BTreeMap<&'static str, usize>,
    answers: BTreeMap<(&'static str, usize), usize>,
    effects: BTreeMap<&'static str, usize>,
}

fn add<K: Ord + Copy>(counts: &mut BTreeMap<K, usize>, others: &BTreeMap<K, usize>) {
    for (&key, count) in others {
        *counts.entry(key).or_default() += count;
    }
}

/// Names with their counts, on a line.
fn line(counts: &BTreeMap<&'static str, usize>) -> String {
    let counts = counts.iter();
    let counts: Vec<String> = counts.map(|(name, n)| format!("{name} {n}")).collect();
    counts.join(", ")
}

impl Tally {
    /// Counts a case by its groups.
    pub fn begin(&mut self, groups: &[&'static str]) {
        self.cases += 1;
        for group in groups {
            *self.groups.entry(group).or_default() += 1;
        }
    }

    /// Counts a call by what it returned.
    pub fn count(&mut self, call: &Call, returned: usize, answer: &[u64]) {
        let key = (call.name(), returned % 65_536);
        *self.answers.entry(key).or_default() += 1;
        if returned != 0 {
            return;
        }
        let mut effect = |name| *self.effects.entry(name).or_default() += 1;
        match (call, answer) {
            (Call::Lookup(..), [0, ..]) => effect("no"),
            (Call::Lookup(..), _) => effect("yes"),
            (Call::Change { withdrawn, added }, [removed, returned, gained, ..]) => {
                let found = [
                    ("removed", *removed > 0),
                    ("returned", *returned > 0),
                    ("gained", *gained > 0),
                    ("both lists", !withdrawn.is_empty() && !added.is_empty()),
                ];
                let found = found.into_iter().filter(|(_, found)| *found);
                found.for_each(|(name, _)| effect(name));
            }
            _ => {}
        }
    }

    /// Takes in the counts of another.
    pub fn add(&mut self, other: &Tally) {
        self.cases += other.cases;
        add(&mut self.groups, &other.groups);
        add(&mut self.answers, &other.answers);
        add(&mut self.effects, &other.effects);
    }

    /// The cases of a group.
    pub fn group(&self, name: &str) -> usize {
        self.groups.get(name).copied().unwrap_or(0)
    }

    /// All calls.
    pub fn calls(&self) -> usize {
        self.answers.values().sum()
    }

    /// The calls of a name.
    pub fn of(&self, name: &str) -> usize {
        let named = self.answers.iter().filter(|((call, _), _)| *call == name);
        named.map(|(_, count)| count).sum()
    }

    /// How many calls of a name returned a number.
    pub fn returned(&self, name: &str, number: usize) -> usize {
        let mut answers = self.answers.iter();
        let found = answers.find(|((call, returned), _)| *call == name && *returned == number);
        found.map_or(0, |(_, count)| *count)
    }

    /// How many accepted calls had an effect: `yes`, `no`, `removed`, `returned`, `gained`,
    /// `both lists`.
    pub fn effect(&self, name: &str) -> usize {
        self.effects.get(name).copied().unwrap_or(0)
    }

    /// All cases and calls, and the calls by name, on a line.
    pub fn summary(&self) -> String {
        let calls = QUESTIONS.iter().map(|&(call, _)| (call, self.of(call)));
        let calls = calls.filter(|(_, count)| *count > 0).collect();
        let (cases, all) = (self.cases, self.calls());
        format!("{cases} cases, {all} calls: {}", line(&calls))
    }

    /// The answers of a call that its questions allow and that were not met, and those that were
    /// met though they are not allowed.
    pub fn unmet(&self) -> Vec<(&'static str, usize)> {
        let allowed = QUESTIONS.iter().flat_map(|&(call, questions)| {
            let all = questions.iter().copied().chain([0, SHORT_ANSWER]);
            all.map(move |number| (call, number))
        });
        let allowed: BTreeSet<_> = allowed.collect();
        let met: BTreeSet<_> = self.answers.keys().copied().collect();
        allowed.symmetric_difference(&met).copied().collect()
    }
}

/// The counts by call, with the questions that refused them, and what accepted calls did.
impl fmt::Display for Tally {
    fn fmt(&self, f: &mut fmt::Formatter<'_>) -> fmt::Result {
        writeln!(f, "{}", self.summary())?;
        for (call, _) in QUESTIONS.iter().filter(|(call, _)| self.of(call) > 0) {
            let of_call = self.answers.iter().filter(|((name, _), _)| name == call);
            let refused = of_call.filter(|((_, number), _)| *number != 0);
            let refused = refused.map(|((_, number), count)| format!("{number}: {count}"));
            let refused: Vec<String> = refused.collect();
            let (accepted, refused) = (self.returned(call, 0), refused.join(", "));
            writeln!(f, "{call}: {accepted} accepted; refused by {refused}")?;
        }
        let more = [
            ("lookups and changes", &self.effects),
            ("catalogues", &self.groups),
        ];
        for (name, counts) in more.iter().filter(|(_, counts)| !counts.is_empty()) {
            writeln!(f, "{name}: {}", line(counts))?;
        }
        Ok(())
    }
}
