//! The search for the rule that most entries agree with.
//!
//! Where no entry contradicts another one, elimination has the answer. Else rules are tried: each is solved from as many
//! independent entries as there are, drawn by chance with a fixed seed, and is scored by how many entries agree with it.
//! Short names need few weights, so a first rule is put together from short to long, each step chosen by the most votes.

use super::solved::{Equation, Solved, Weights, WEIGHTS};
use std::collections::BTreeSet;
use std::ops::Range;

/// The longest name, and the last weight.
pub const LONGEST: usize = WEIGHTS - 1;
/// How many rules are tried for a step of the first one, and how many after it. Fewer where there are many entries.
const VOTES: usize = 200;
const TRIALS: usize = 10_000;
/// How many entries the trials may look at in all.
const LOOKS: usize = 40_000_000;

/// Numbers by chance, always the same ones (splitmix64).
struct Chance(u64);

impl Chance {
    fn below(&mut self, bound: usize) -> usize {
        self.0 = self.0.wrapping_add(0x9E37_79B9_7F4A_7C15);
        let mixed = (self.0 ^ (self.0 >> 30)).wrapping_mul(0xBF58_476D_1CE4_E5B9);
        let mixed = (mixed ^ (mixed >> 27)).wrapping_mul(0x94D0_49BB_1331_11EB);
        ((mixed ^ (mixed >> 31)) % bound as u64) as usize
    }
}

/// The last that is true.
fn last(of: &[bool]) -> Option<usize> {
    of.iter().rposition(|&it| it)
}

/// All entries, sorted by their reach.
pub struct Entries {
    pub all: Vec<Equation>,
    /// Where those of each reach begin, and the end.
    starts: [usize; WEIGHTS + 1],
    /// How many independent ones reach at most so far.
    pub ranks: [usize; WEIGHTS],
    /// All of them in order, without what contradicts those before it.
    pub plain: Solved,
}

impl Entries {
    pub fn of(equations: &[Equation]) -> Entries {
        let mut all = equations.to_vec();
        all.sort_unstable();
        let mut starts = [0; WEIGHTS + 1];
        let (mut ranks, mut plain) = ([0; WEIGHTS], Solved::default());
        for n in 0..WEIGHTS {
            starts[n + 1] = all.partition_point(|equation| equation.reach <= n);
            all[starts[n]..starts[n + 1]].iter().for_each(|equation| _ = plain.take(equation));
            ranks[n] = plain.rank;
        }
        Entries { all, starts, ranks, plain }
    }

    /// Those of a range of reaches.
    fn within(&self, reaches: &Range<usize>) -> &[Equation] {
        &self.all[self.starts[reaches.start]..self.starts[reaches.end]]
    }

    /// The entries that reach at most n, in order, without what contradicts those before it.
    pub fn up_to(&self, n: usize) -> Solved {
        let mut solved = Solved::default();
        self.within(&(0..n + 1)).iter().for_each(|entry| _ = solved.take(entry));
        solved
    }

    /// Takes in entries of these reaches that are drawn by chance, a reach first and then one of its entries, until they
    /// settle all that the entries up to there do. What chance does not find soon is taken in order.
    fn draw(
        &self,
        solved: &mut Solved,
        reaches: Range<usize>,
        chance: &mut Chance,
        liked: impl Fn(&Equation) -> bool,
    ) {
        let wanted = self.ranks[reaches.end - 1];
        let there: Vec<&[Equation]> = reaches
            .clone()
            .map(|n| self.within(&(n..n + 1)))
            .filter(|entries| !entries.is_empty())
            .collect();
        for _ in 0..16 * (wanted - solved.rank) {
            if solved.rank == wanted {
                return;
            }
            let entries = there[chance.below(there.len())];
            let entry = &entries[chance.below(entries.len())];
            if liked(entry) || chance.below(8) == 0 {
                solved.take(entry);
            }
        }
        for entry in self.within(&reaches).iter().rev() {
            if solved.rank == wanted {
                return;
            }
            solved.take(entry);
        }
    }

    /// Ranges of reaches, ascending, with entries enough in each that the wrong ones can be outvoted.
    fn steps(&self) -> Vec<Range<usize>> {
        let (mut steps, mut first) = (Vec::new(), 0_usize);
        for n in 0..WEIGHTS {
            let before = first.checked_sub(1).map_or(0, |last| self.ranks[last]);
            let (new, entries) = (self.ranks[n] - before, self.within(&(first..n + 1)).len());
            if new > 0 && entries >= 4 * new || n == LONGEST && entries > 0 {
                steps.push(first..n + 1);
                first = n + 1;
            }
        }
        steps
    }

    /// The first rule: for each step the choice that most of its entries agree with.
    fn voted(&self, chance: &mut Chance) -> Weights {
        let mut fixed = Solved::default();
        for step in self.steps() {
            let choices = (0..VOTES).map(|_| {
                let mut solved = fixed.clone();
                self.draw(&mut solved, step.clone(), chance, |_| true);
                solved
            });
            let missed = |solved: &Solved| {
                let weights = solved.weights();
                self.within(&step).iter().filter(|entry| !entry.holds(&weights)).count()
            };
            fixed = choices.min_by_key(missed).expect("some votes");
        }
        fixed.weights()
    }

    /// How many entries do not agree; none if they are more than `most`.
    fn missed(&self, weights: &Weights, most: usize) -> Option<usize> {
        let wrong = self.all.iter().filter(|entry| !entry.holds(weights));
        let missed = wrong.take(most + 1).count();
        (missed <= most).then_some(missed)
    }

    /// Up to which reach it is certain that no other rule agrees with as many entries. Of the entries that agree, sets
    /// are laid apart, one more than there are entries that do not, and each settles all that the entries up to that reach
    /// do. Any rule that differs there disagrees with one of every set, and loses more entries than it can win.
    fn certain_to(&self, weights: &Weights, missed: usize) -> Option<usize> {
        let agrees = |entry: &&Equation| entry.holds(weights);
        let mut left: Vec<Vec<Equation>> = (0..WEIGHTS)
            .map(|n| self.within(&(n..n + 1)).iter().filter(agrees).copied().collect())
            .collect();
        let mut is_settled = [true; WEIGHTS];
        for _ in 0..=missed {
            let mut set = Solved::default();
            for n in 0..=last(&is_settled)? {
                left[n].retain(|entry| set.rank == self.ranks[n] || !set.take(entry));
                is_settled[n] &= set.rank == self.ranks[n];
            }
        }
        last(&is_settled)
    }

    pub fn search(&self) -> Best {
        let mut chance = Chance(0);
        let mut best = Best::new(self, self.plain.weights());
        if best.certain_to == Some(LONGEST) {
            return best;
        }
        best.meet(self, self.voted(&mut chance));
        for trial in 0..TRIALS.min(LOOKS / self.all.len()).max(VOTES) {
            if best.certain_to == Some(LONGEST) {
                break;
            }
            let mut solved = Solved::default();
            // Every other rule is drawn near the best one.
            let liked = |entry: &Equation| trial % 2 == 0 || entry.holds(&best.weights);
            self.draw(&mut solved, 0..WEIGHTS, &mut chance, liked);
            best.meet(self, solved.weights());
        }
        best
    }
}

/// The best rule so far.
pub struct Best {
    pub weights: Weights,
    missed: usize,
    /// Up to which reach no other rule agrees with as many entries.
    pub certain_to: Option<usize>,
    /// All that were met and are as good.
    pub rivals: BTreeSet<Weights>,
}

impl Best {
    fn new(entries: &Entries, weights: Weights) -> Best {
        let missed = entries.missed(&weights, entries.all.len()).expect("no more than all");
        let certain_to = entries.certain_to(&weights, missed);
        Best { weights, missed, certain_to, rivals: BTreeSet::new() }
    }

    fn meet(&mut self, entries: &Entries, weights: Weights) {
        match entries.missed(&weights, self.missed) {
            Some(missed) if missed < self.missed => *self = Best::new(entries, weights),
            Some(_) if weights != self.weights => _ = self.rivals.insert(weights),
            _ => {}
        }
    }
}
