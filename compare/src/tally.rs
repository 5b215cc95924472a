//! Counts by outcome.
use std::{collections::BTreeMap, fmt};

/// What an answer comes to: a reading of so many orders, or the number of a refusal.
#[derive(Clone, Copy, Debug, Eq, Ord, PartialEq, PartialOrd)]
pub enum Outcome {
    Reading(usize),
    Refused(usize),
}

impl Outcome {
    pub const REFUSALS: [usize; 24] =
        [10, 11, 12, 13, 14, 15, 16, 17, 18, 19, 20, 21, 22, 23, 24, 25, 26, 27, 28, 29, 30, 31, 32, 33];

    pub fn of(answer: &str) -> Self {
        let mut words = answer.split(' ');
        let kind = words.next().unwrap();
        let number = words.next().unwrap().parse().unwrap();
        match kind {
            "reading" => Self::Reading(most(number)),
            "refused" => Self::Refused(number),
            _ => panic!("no answer: {answer}"),
        }
    }
}

/// Readings of many orders are counted together, under the lowest number of their range.
fn most(orders: usize) -> usize {
    match orders {
        0..=4 => orders,
        5..=15 => 5,
        16..=63 => 16,
        64..=127 => 64,
        _ => 128,
    }
}

impl fmt::Display for Outcome {
    fn fmt(&self, f: &mut fmt::Formatter) -> fmt::Result {
        match self {
            Self::Reading(1) => write!(f, "reading of 1 order"),
            Self::Reading(5) => write!(f, "reading of 5 to 15"),
            Self::Reading(16) => write!(f, "reading of 16 to 63"),
            Self::Reading(64) => write!(f, "reading of 64 to 127"),
            Self::Reading(n) => write!(f, "reading of {n}"),
            Self::Refused(n) => write!(f, "refused {n}"),
        }
    }
}

/// Counts for each part of a run.
#[derive(Default)]
pub struct Tally {
    parts: Vec<(&'static str, BTreeMap<Outcome, usize>)>,
}

impl Tally {
    pub fn part(&mut self, name: &'static str) {
        self.parts.push((name, BTreeMap::new()));
    }

    pub fn add(&mut self, answer: &str) {
        let (_, counts) = self.parts.last_mut().unwrap();
        *counts.entry(Outcome::of(answer)).or_default() += 1;
    }

    pub fn count(&self, outcome: Outcome) -> usize {
        self.parts.iter().filter_map(|(_, counts)| counts.get(&outcome)).sum()
    }

    /// The refusals that were never met.
    pub fn unmet(&self) -> Vec<usize> {
        let met = |n: &usize| self.count(Outcome::Refused(*n)) > 0;
        Outcome::REFUSALS.into_iter().filter(|n| !met(n)).collect()
    }

    fn outcomes(&self) -> Vec<Outcome> {
        let mut all = self.parts.iter().flat_map(|(_, c)| c.keys().copied()).collect::<Vec<Outcome>>();
        all.sort();
        all.dedup();
        all
    }
}

/// A table in Markdown.
impl fmt::Display for Tally {
    fn fmt(&self, f: &mut fmt::Formatter) -> fmt::Result {
        write!(f, "| outcome |")?;
        self.parts.iter().try_for_each(|(name, _)| write!(f, " {name} |"))?;
        write!(f, " all |\n|---|")?;
        self.parts.iter().try_for_each(|_| write!(f, "---:|"))?;
        writeln!(f, "---:|")?;
        for outcome in self.outcomes() {
            write!(f, "| {outcome} |")?;
            for (_, counts) in &self.parts {
                write!(f, " {} |", counts.get(&outcome).unwrap_or(&0))?;
            }
            writeln!(f, " {} |", self.count(outcome))?;
        }
        write!(f, "| all |")?;
        let sum = |counts: &BTreeMap<Outcome, usize>| counts.values().sum::<usize>();
        self.parts.iter().try_for_each(|(_, counts)| write!(f, " {} |", sum(counts)))?;
        writeln!(f, " {} |", self.parts.iter().map(|(_, counts)| sum(counts)).sum::<usize>())
    }
}
