//! Learning the hash rule: which weights most entries of directories agree with, and how much is to be made of that. The hash
//! of a name of n characters c1 .. cn is w0*n + w1*c1 + .. + wn*cn modulo 31, so every entry is a linear equation for the
//! weights over the field of 31 elements.

mod search;
mod solved;

pub use solved::{Equation, Weights, WEIGHTS};

use search::{Best, Entries, LONGEST};
use std::collections::BTreeSet;

/// So many entries that could have failed confirm a rule that all agree with.
const CONFIRMING: usize = 4;
/// Weights of 0 put every name into blocks 0, 31, 62 and so on. If no more than one agreeing entry of so many stands
/// elsewhere, the entries say nothing of the rule.
const ELSEWHERE: usize = 20;

/// How far no other rule agrees with as many entries.
#[derive(Clone, Copy, Debug, PartialEq, Eq)]
pub enum Certain {
    /// None that places any of the entries otherwise.
    All,
    /// None that places any name of at most so many characters otherwise.
    Names(usize),
    /// It is the best that was found.
    Nothing,
}

/// What the entries say.
#[derive(Clone, Debug)]
pub struct Learnt {
    /// What is not settled in them is 0, or one choice that fits.
    pub weights: Weights,
    /// How many entries agree, and how many of these stand in blocks 0, 31, 62 and so on.
    pub agreeing: usize,
    pub in_block_0: usize,
    /// How many independent equations the entries are.
    pub independent: usize,
    /// How many different ones agree beyond those: each could have failed.
    pub confirming: usize,
    /// How many of them confirm a rule.
    pub wanted: usize,
    /// The weights that have the same value in every rule that the same entries agree with, and in all rivals. None where the
    /// entries say nothing of the rule.
    pub settled: Vec<usize>,
    /// The weights that no entry says anything of.
    pub untold: Vec<usize>,
    /// The settled weights place all names of at most so many characters; 0 for none.
    pub placed_to: usize,
    /// How far no other rule agrees with as many, confirmed or not.
    pub best: Certain,
    /// The same as far as it is confirmed; nothing where the entries say nothing of the rule.
    pub certain: Certain,
    /// The other rules that were found with as many entries that agree.
    pub rivals: BTreeSet<Weights>,
}

impl Learnt {
    /// Whether the zero rule would do, whatever the real one is.
    pub fn says_nothing(&self) -> bool {
        ELSEWHERE * (self.agreeing - self.in_block_0) <= self.agreeing
    }

    pub fn is_confirmed(&self) -> bool {
        self.confirming >= self.wanted && !self.says_nothing()
    }

    /// Whether a weight has another value in a rival.
    pub fn is_disputed(&self, i: usize) -> bool {
        self.rivals.iter().any(|rival| rival[i] != self.weights[i])
    }

    /// Says what is settled and certain, where the entries say anything of that.
    fn judge(&mut self, entries: &Entries, certain_to: Option<usize>) {
        self.best = match certain_to.map(|n| entries.up_to(n).places_to()) {
            _ if certain_to == Some(LONGEST) => Certain::All,
            None | Some(0) => Certain::Nothing,
            Some(most) => Certain::Names(most),
        };
        if self.says_nothing() {
            return;
        }
        let is_settled = |&i: &usize| entries.plain.settles(i) && !self.is_disputed(i);
        self.settled = (0..WEIGHTS).filter(is_settled).collect();
        let in_a_row = self.settled.iter().zip(0..).take_while(|(&weight, i)| weight == *i);
        self.placed_to = in_a_row.count().saturating_sub(1);
        // Names up to a length are certain if they confirm each other, besides the whole being confirmed.
        let is_confirmed = |n| {
            let (confirming, wanted) = confirmation(entries, &self.weights, n);
            confirming >= wanted
        };
        if self.is_confirmed() && certain_to.is_some_and(is_confirmed) {
            self.certain = self.best;
        }
    }
}

/// How many different entries that reach at most n agree beyond the independent ones, and how many are wanted.
fn confirmation(entries: &Entries, weights: &Weights, n: usize) -> (usize, usize) {
    let different: BTreeSet<&Equation> =
        entries.all.iter().filter(|entry| entry.reach <= n).collect();
    let agreeing = different.iter().filter(|entry| entry.holds(weights)).count();
    (agreeing - entries.ranks[n], wanted(agreeing, different.len() - agreeing))
}

/// How many entries must confirm a rule. Where some do not agree, the search has chosen which ones these are, and among that
/// many choices chance finds a rule too: every entry agrees with it in one case of 31, so each factor of 31 wants one more.
fn wanted(agreeing: usize, missed: usize) -> usize {
    let choices: f64 = (1..=missed).map(|i| ((agreeing + i) as f64 / i as f64).ln()).sum();
    CONFIRMING + (choices / 31_f64.ln()).ceil() as usize
}

/// Learns from entries; from none there is nothing to be learnt.
pub fn learn(equations: &[Equation]) -> Option<Learnt> {
    if equations.is_empty() {
        return None;
    }
    let entries = Entries::of(equations);
    let Best { weights, certain_to, rivals, .. } = entries.search();
    let (confirming, wanted) = confirmation(&entries, &weights, LONGEST);
    let agreeing = || entries.all.iter().filter(|entry| entry.holds(&weights));
    let mut learnt = Learnt {
        weights,
        agreeing: agreeing().count(),
        in_block_0: agreeing().filter(|entry| entry.stands_at_0()).count(),
        independent: entries.plain.rank,
        confirming,
        wanted,
        settled: Vec::new(),
        untold: (0..WEIGHTS).filter(|&i| entries.all.iter().all(|e| e.left[i] == 0)).collect(),
        placed_to: 0,
        best: Certain::Nothing,
        certain: Certain::Nothing,
        rivals,
    };
    learnt.judge(&entries, certain_to);
    Some(learnt)
}
