//! The elimination behind `tapermoss rule`, held to all rules there are where these are few, and to the rules that random
//! trees were made with.

mod common;
#[path = "../src/learn/mod.rs"]
mod learn;

use common::rules::{hash, object, random_name, random_rule, remainders, weights, FIRST};
use common::{with, FLOPPY};
use learn::{learn, Certain, Equation, Learnt, Weights};
use reference::directory::DIRECTORY;
use reference::random_tree::random_tree;
use reference::sample::Rng;
use reference::tree_sample::{plant, Tree};

/// Eight letters agree; one of nine is left out in 9 ways, fewer than 31, and three of eleven in 165, fewer than 31 * 31.
#[test]
fn more_is_wanted_where_entries_do_not_agree() {
    for (others, wanted) in [(0, 4), (1, 5), (3, 6)] {
        let agreeing = (3..11).map(|c| (c, 1 + c));
        let entries = agreeing.chain((11..11 + others).map(|c| (c, c + 1 + c % 7 + 1)));
        let entries = entries.map(|(c, r)| Equation::of(&[62 + c as u8], r));
        let learnt = learn(&entries.collect::<Vec<Equation>>()).expect("some entries");
        assert_eq!((learnt.agreeing, learnt.confirming, learnt.wanted), (8, 6, wanted));
        assert!(learnt.is_confirmed());
    }
}

/// Short names are certain by themselves only if short names confirm them: the same two names again and again do not.
#[test]
fn a_length_of_names_is_certain_only_if_names_of_it_confirm_it() {
    // w0 = -1 and w1 = 2 put "A" in block 5 and "B" in 7, and with w2 = 1 a name "A?" in block 4 + c2.
    let longer = (3..12).map(|c| (c, 4 + c));
    let longer = longer.chain((12..21).zip(2..).map(|(c, w2)| (c, 4 + c * w2)));
    let mut equations: Vec<Equation> =
        longer.map(|(c, r)| Equation::of(&[b'A', 62 + c as u8], r)).collect();
    for _ in 0..10 {
        equations.extend([Equation::of(b"A", 5), Equation::of(b"b", 7)]);
    }
    let two = learn(&equations).expect("some entries");
    assert_eq!((two.agreeing, two.confirming, &two.weights[..3]), (29, 8, &[30, 2, 1][..]));
    assert!(two.is_confirmed());
    assert_eq!((two.best, two.certain), (Certain::Names(1), Certain::Nothing));
    equations.extend((5..9).map(|c| Equation::of(&[62 + c as u8], 30 + 2 * c)));
    let six = learn(&equations).expect("some entries");
    assert_eq!((six.best, six.certain), (Certain::Names(1), Certain::Names(1)));
}

/// The equations of the valid lines of directories of a tree, read off the plan.
fn equations_of(tree: &Tree) -> Vec<Equation> {
    let is_read = |&i: &usize| i == 0 || tree.nodes[i].sort == DIRECTORY;
    let of_node = |i: usize| {
        let placed = tree.nodes[i].lines.iter().zip(tree.places(i));
        let valid =
            placed.filter(|(line, _)| line.flags & 1 == 1 && (1..=25).contains(&line.length));
        valid.map(|(line, (r, _))| Equation::of(&line.name, r)).collect::<Vec<Equation>>()
    };
    (0..tree.nodes.len()).filter(is_read).flat_map(of_node).collect()
}

#[test]
fn random_trees_agree_at_least_as_well_as_with_their_own_rule() {
    let mut rng = Rng::new(9);
    let mut seen = 0;
    for _ in 0..40 {
        let levels = 1 + rng.below(9);
        let tree = random_tree(&mut rng, levels);
        let equations = equations_of(&tree);
        let Ok(own) = Weights::try_from(remainders(&tree.rule)) else { continue };
        let folder = with(&plant(&tree, FLOPPY, 432, FIRST, 431));
        let (object, _) = object(&[&folder.text("disk")]);
        assert_eq!(object["entries"], equations.len(), "{object}");
        if equations.is_empty() {
            continue;
        }
        let agree = |rule: &Weights| equations.iter().filter(|it| it.holds(rule)).count();
        let found = Weights::try_from(weights(&object)).expect("26");
        assert_eq!(object["agreeing"], agree(&found));
        assert!(agree(&found) >= agree(&own), "{object}");
        seen += 1;
    }
    assert!(seen > 20);
}

/// The fewest of the equations that a rule of three weights misses, and the rules that miss no more.
fn best_of_all(equations: &[Equation]) -> (usize, Vec<Weights>) {
    let mut best = (usize::MAX, Vec::new());
    for number in 0..31_u32.pow(3) {
        let mut rule = [0; 26];
        for (i, weight) in rule[..3].iter_mut().enumerate() {
            *weight = (number / 31_u32.pow(i as u32) % 31) as u8;
        }
        let missed = equations.iter().filter(|it| !it.holds(&rule)).count();
        if missed < best.0 {
            best = (missed, Vec::new());
        }
        if missed == best.0 {
            best.1.push(rule);
        }
    }
    best
}

/// Some entries with names of one or two characters, of which about one in `share` stands in a block by chance.
fn short_entries(rng: &mut Rng, count: u32, share: u32) -> Vec<Equation> {
    let rule = random_rule(rng);
    let mut entry = |_| {
        let length = if rng.below(3) == 0 { 2 } else { 1 };
        let name = random_name(rng, length);
        let moved = if rng.below(share) == 0 { rng.below(31) } else { 0 };
        Equation::of(&name, hash(&rule, &name) + moved)
    };
    (0..count).map(&mut entry).collect()
}

/// Holds what was learnt to the best of all rules.
fn check_against(rules: &[Weights], learnt: &Learnt, equations: &[Equation]) {
    let alike = |it: &Equation| rules.iter().all(|rule| it.hash(rule) == it.hash(&learnt.weights));
    let letters: Vec<Equation> = (1..=255).map(|letter| Equation::of(&[letter], 0)).collect();
    match learnt.certain {
        Certain::All => {
            assert!(equations.iter().all(alike));
            // All the best rules are then those that fit the same entries.
            let is_one = |&i: &usize| rules.iter().all(|rule| rule[i] == rules[0][i]);
            assert_eq!(learnt.settled, (0..3).filter(is_one).collect::<Vec<usize>>());
            assert_eq!(rules.len(), 31_usize.pow(3 - learnt.independent as u32));
            assert_eq!(learnt.placed_to >= 1, letters.iter().all(alike));
        }
        Certain::Names(most) => assert!(most == 1 && letters.iter().all(alike)),
        Certain::Nothing => {}
    }
    for rival in &learnt.rivals {
        assert!(rules.contains(rival));
        assert!(equations.iter().any(|it| it.hash(rival) != it.hash(&learnt.weights)));
        assert!(learnt.settled.iter().all(|&i| rival[i] == learnt.weights[i]));
    }
    assert!(learnt.certain == Certain::Nothing || learnt.is_confirmed());
    let mut agreeing: Vec<&Equation> =
        equations.iter().filter(|it| it.holds(&learnt.weights)).collect();
    agreeing.sort();
    agreeing.dedup();
    assert_eq!(learnt.confirming, agreeing.len() - learnt.independent);
    assert!((3..26).all(|i| learnt.untold.contains(&i) && learnt.weights[i] == 0));
}

/// Names of one or two characters: there are 29,791 rules, and all are asked.
#[test]
fn no_rule_is_better_where_all_can_be_asked() {
    let mut rng = Rng::new(10);
    let mut seen = [0; 4];
    for _ in 0..150 {
        let (count, share) = (3 + rng.below(25), 2 + rng.below(8));
        let equations = short_entries(&mut rng, count, share);
        let learnt = learn(&equations).expect("some entries");
        let (missed, rules) = best_of_all(&equations);
        assert_eq!(equations.iter().filter(|it| !it.holds(&learnt.weights)).count(), missed);
        check_against(&rules, &learnt, &equations);
        seen[3] += u32::from(!learnt.rivals.is_empty());
        seen[match learnt.certain {
            Certain::All => 0,
            Certain::Names(_) => 1,
            Certain::Nothing => 2,
        }] += 1;
    }
    assert!(seen.iter().all(|&times| times > 0), "{seen:?}");
}
