//! Directories: look_up and tree on random trees, sound and damaged, as the reference has them. Broken paths, and what tree
//! lists looked up again, are in directory_paths.rs.

use perq::Rule;
use reference::directory::{DIRECTORY, HASHES};
use reference::random_tree::random_path;
use reference::sample::Rng;
use reference::tree::ROW;
use reference::tree_sample::{set_root, Line, Names, Stand, Tree};
use reference::DONE;
use trials::both::Both;
use trials::call::{Call, Name};
use trials::damage::{self, Field};
use trials::draw::{self, candidates};
use trials::images::Place;
use trials::settings::{cases, long_run, rng, rounds};
use trials::sweep;
use trials::tally::{is_refusal, Tally};
use trials::trees::{some_tree, tree_of, Planted};

/// What the trees of a test have had, so that none of it is left out by chance.
#[derive(Debug, Default)]
struct Seen {
    /// Lines in blocks from 31 on, which are reached only by overflow or in long directories.
    overflow: u32,
    /// Lines in a block that their name does not select.
    wrong_block: u32,
    /// Lines that name their own directory or one that stands before it in the tree.
    circles: u32,
    /// Trees by how many directories stand one in the other, at most 11 and two side directories.
    levels: [u32; 14],
}

/// How many directories stand one in the other: the root, and as long as a good line of one names the node after it, that one.
fn levels(tree: &Tree) -> usize {
    let rule = Rule::from_bytes(&tree.rule).expect("a rule");
    let names_next = |i: usize| {
        let good = |line: &Line, r: u32| {
            line.flags % 2 == 1
                && usize::from(line.length) == line.name.len()
                && rule.hash(&line.name).is_none_or(|hash| u32::from(hash) == r % HASHES)
        };
        let mut lines = tree.nodes[i].lines.iter().zip(tree.places(i));
        tree.nodes[i + 1].sort == DIRECTORY
            && lines.any(|(line, (r, _))| line.names == Names::Node(i + 1) && good(line, r))
    };
    1 + (0..tree.nodes.len() - 1).take_while(|&i| names_next(i)).count()
}

impl Seen {
    fn add(&mut self, tree: &Tree) {
        self.levels[levels(tree)] += 1;
        for (i, node) in tree.nodes.iter().enumerate().filter(|(_, node)| node.sort == DIRECTORY) {
            let places = tree.places(i);
            for (line, (r, _)) in node.lines.iter().zip(places) {
                let above = matches!(line.names, Names::Node(k) if k <= i);
                self.overflow += u32::from(r >= HASHES);
                self.wrong_block += u32::from(line.stand == Stand::Wrong && !tree.rule.is_empty());
                self.circles += u32::from(above);
            }
        }
    }

    fn must_have_all(&self) {
        let kinds = [self.overflow, self.wrong_block, self.circles];
        assert!(kinds.iter().chain(&self.levels[8..=11]).all(|&count| count > 0), "{self:?}");
    }
}

/// So many calls drawn at random, aimed at the tree.
fn some_calls(planted: Planted, count: u32, rng: &mut Rng, tally: &mut Tally) {
    let Planted { tree, place, image } = planted;
    let mut both = Both::new(image);
    for _ in 0..count {
        let call = draw::call(&Name::DIRECTORIES, both.image(), &place, &[], rng);
        let call = draw::aimed(call, &tree, rng);
        let answer = both.call(&call);
        tally.add(&call, answer);
    }
}

/// Puts something for the root that is a file with no look of a directory, a free block, or no address.
fn move_root(planted: &mut Planted, rng: &mut Rng) {
    let Planted { place, image, .. } = planted;
    let lda = match rng.below(4) {
        0 => 0,
        1 => rng.number() as u32,
        2 => place.lda(place.e),
        _ => place.lda(place.any_block(rng)),
    };
    set_root(image, place.s, lda);
}

#[test]
fn random_trees() {
    let (mut rng, mut tally, mut seen) = (rng(50), Tally::default(), Seen::default());
    for _ in 0..cases(40_000) / 20 {
        let mut planted = tree_of(1 + rng.below(11), &mut rng);
        seen.add(&planted.tree);
        if rng.below(10) == 0 {
            move_root(&mut planted, &mut rng);
        }
        some_calls(planted, 20, &mut rng, &mut tally);
    }
    tally.must_have_all(&Name::DIRECTORIES);
    seen.must_have_all();
}

#[test]
fn damaged_trees() {
    let (mut rng, mut tally) = (rng(51), Tally::default());
    for _ in 0..cases(40_000) / 20 {
        let mut planted = some_tree(&mut rng);
        for _ in 0..1 + rng.below(4) {
            damage::damage(&mut planted.image, &planted.place, &mut rng);
        }
        some_calls(planted, 20, &mut rng, &mut tally);
    }
    tally.must_have_all(&Name::DIRECTORIES);
}

/// Puts every likely value into each of these fields of block b, one at a time, and looks at the tree each time.
fn try_fields(planted: &Planted, b: u32, fields: &[Field], paths: &[Vec<u8>]) {
    let Planted { tree, place, image } = planted;
    let mut both = Both::new(image.clone());
    for &field in fields {
        let old = damage::get(image, b, field);
        for value in damage::values(image, place, b, field) {
            both.edit(|image| damage::set(image, b, field, value));
            sweep::directories(&mut both, place, tree, paths);
        }
        both.edit(|image| damage::set(image, b, field, old));
    }
}

#[test]
fn each_field_that_a_directory_is_read_by() {
    let mut rng = rng(52);
    for _ in 0..if long_run() { 20 } else { 1 } {
        let planted = tree_of(3, &mut rng);
        let Planted { tree, place, image } = &planted;
        let paths: Vec<Vec<u8>> = (0..4).map(|_| random_path(&mut rng, tree)).collect();
        try_fields(&planted, place.s, &damage::pib_fields(), &paths);
        for f in candidates(image, place).into_iter().take(3) {
            try_fields(&planted, f, &damage::fib_fields(), &paths);
            try_fields(&planted, f, &damage::header_fields(), &paths);
            let shown = reference::show(image, place.drive, place.s, f, 0);
            let first = shown.a / perq::RECORD as u32;
            try_fields(&planted, first, &damage::entry_fields(), &paths);
        }
    }
}

/// All rows of a tree, which must be done; none if a tenth level is in it.
fn all_rows(both: &mut Both, place: &Place, rule: &[u8]) -> Option<Vec<u8>> {
    let call = place.call(Name::Tree).with_rule(rule).with_buffer(&vec![0; 10_000 * ROW]);
    let (answer, rows) = both.call_with(&call, &[]);
    if is_refusal(answer, 11) {
        return None;
    }
    assert_eq!((answer.outcome, answer.b), (DONE, 0), "the tree ends before 10,000 rows");
    Some(rows[..ROW * answer.a as usize].to_vec())
}

/// Fewer rows give the first ones of the same tree, say that there is more, and leave the rest of the caller's memory.
#[test]
fn every_number_of_rows() {
    let (mut rng, mut trees) = (rng(53), 0);
    for _ in 0..rounds(2_000, 100) {
        let Planted { tree, place, image } = tree_of(4, &mut rng);
        let mut both = Both::new(image);
        let Some(all) = all_rows(&mut both, &place, &tree.rule) else {
            continue;
        };
        trees += 1;
        let total = all.len() / ROW;
        for room in 0..=(total + 2).min(150) {
            let call = place.call(Name::Tree).with_rule(&tree.rule);
            let (answer, rows) = both.call_with(&call.with_buffer(&vec![0xEE; ROW * room]), &[]);
            let filled = room.min(total);
            assert_eq!((answer.a as usize, answer.b), (filled, u32::from(room < total)));
            assert!(rows[..ROW * filled] == all[..ROW * filled]);
            assert!(rows[ROW * filled..].iter().all(|&byte| byte == 0xEE));
        }
    }
    assert!(trees > 10, "{trees} trees of four levels that end");
}

#[test]
fn rules_and_rows_of_every_length() {
    let Planted { place, image, .. } = tree_of(3, &mut rng(54));
    let mut both = Both::new(image);
    for length in 0..=80 {
        let wrong = length != 0 && length != 26;
        for name in Name::DIRECTORIES {
            let answer = both.call(&place.call(name).with_rule(&vec![1; length]));
            assert_eq!(is_refusal(answer, 3), wrong, "{name:?} with a rule of {length} bytes");
        }
    }
    for length in 0..=130 {
        let answer = both.call(&place.call(Name::Tree).with_buffer(&vec![1; length]));
        assert_eq!(is_refusal(answer, 3), length % ROW != 0, "rows of {length} bytes");
    }
}

/// 11 is given after every other number.
#[test]
fn the_tenth_level_is_the_last_refusal() {
    let mut rng = rng(56);
    let deep = std::iter::repeat_with(|| tree_of(11, &mut rng)).take(1_000).find(|planted| {
        let mut both = Both::new(planted.image.clone());
        all_rows(&mut both, &planted.place, &[]).is_none()
    });
    let Planted { place, image, .. } = deep.expect("one tree of 1,000 that meets the tenth level");
    let call = place.call(Name::Tree).with_buffer(&[7; 10_000 * ROW]);
    let number = |image: &[u8], call: Call| Both::new(image.to_vec()).call(&call).number;
    assert_eq!(number(&image, call.clone()), 11);
    assert_eq!(number(&image, Call { drive: 4, ..call.clone() }), 1);
    assert_eq!(number(&image, Call { s: place.s + 1, ..call.clone() }), 2);
    assert_eq!(number(&image, call.clone().with_rule(&[1])), 3);
    assert_eq!(number(&image, call.clone().with_buffer(&[7; 10_000 * ROW + 1])), 3);
    let mut rootless = image.clone();
    set_root(&mut rootless, place.s, 0);
    assert_eq!(number(&rootless, call), 6);
}
