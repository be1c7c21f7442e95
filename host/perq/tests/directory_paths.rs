//! Paths in random trees: broken and long ones as the reference answers them, and those of a tree's own rows.

use perq::{Drive, Row, Rule, Target};
use reference::directory::JOINT;
use reference::random_tree::{random_path, recased};
use reference::sample::Rng;
use reference::tree_sample::Tree;
use std::collections::HashSet;
use trials::both::Both;
use trials::call::Name;
use trials::settings::{rng, rounds};
use trials::tally::{Tally, NONE};
use trials::trees::{some_tree, tree_of, Planted};

/// Paths made out of one that may be there: in other cases, broken at every place, and far too long.
fn spoilt(path: &[u8], rng: &mut Rng) -> Vec<Vec<u8>> {
    let mut paths = vec![recased(rng, path), [path, path].concat(), [path, &[0; 300]].concat()];
    paths.push(vec![path; 1_000].join(&JOINT));
    paths.push(vec![JOINT; 5_000]);
    for at in 0..=path.len() {
        paths.push(path[..at].to_vec());
        for byte in [JOINT, b'a', 0, 0xE1] {
            paths.push([&path[..at], &[byte], &path[at..]].concat());
        }
    }
    paths
}

/// The random path of ten that has the most names.
fn long_path(tree: &Tree, rng: &mut Rng) -> Vec<u8> {
    let names = |path: &Vec<u8>| path.split(|&byte| byte == JOINT).count();
    (0..10).map(|_| random_path(rng, tree)).max_by_key(names).expect("one of ten")
}

#[test]
fn broken_and_long_paths() {
    let (mut rng, mut tally) = (rng(55), Tally::default());
    for _ in 0..rounds(2_000, 100) {
        // The second is there for the tenth level.
        for planted in [some_tree(&mut rng), tree_of(11, &mut rng)] {
            let Planted { tree, place, image } = planted;
            let (path, mut both) = (long_path(&tree, &mut rng), Both::new(image));
            for path in spoilt(&path, &mut rng) {
                let call = place.call(Name::LookUp).with_rule(&tree.rule).with_path(&path);
                let answer = both.call(&call);
                tally.add(&call, answer);
            }
        }
    }
    for (outcome, least) in [(0, 100), (NONE, 1_000), (11, 20)] {
        assert!(tally.times(Name::LookUp, outcome) > least, "{tally:?}");
    }
}

/// Whether a path leads to each row in turn: no name on it has a joint or stands in its directory before.
fn findable(rows: &[Row]) -> Vec<bool> {
    let (mut met, mut above) = (HashSet::new(), Vec::new());
    let row = |row: &Row| {
        above.truncate(row.level as usize - 1);
        let fine = above.last().copied().unwrap_or(true) && !row.name.contains(&JOINT);
        let first = fine && met.insert(row.path.to_ascii_uppercase());
        above.push(first);
        first
    };
    rows.iter().map(row).collect()
}

/// What the library lists, the library finds.
#[test]
fn every_row_is_where_its_path_leads() {
    // Rows of files, of directories and of what dangles that are found, and rows that no path leads to.
    let (mut rng, mut found) = (rng(57), [0; 4]);
    for _ in 0..rounds(40_000, 40) {
        let Planted { tree, place, image } = some_tree(&mut rng);
        let rule = Rule::from_bytes(&tree.rule).expect("a rule");
        let drive = Drive::from_number(place.drive).expect("a drive");
        let rows = match perq::tree(&image, drive, place.s, &rule, 5_000) {
            Ok(tree) => tree.rows,
            Err(refusal) => {
                assert_eq!(refusal.number(), 11);
                continue;
            }
        };
        for (row, findable) in rows.iter().zip(findable(&rows)) {
            if !findable {
                found[3] += 1;
                continue;
            }
            let target = row.target.map_or(Target::Dangling, Target::File);
            let led = perq::look_up(&image, drive, place.s, &rule, &row.path);
            assert_eq!(led, Ok(Some(target)), "{}", row.path.escape_ascii());
            found[row.what as usize] += 1;
        }
    }
    assert!(found.iter().all(|&times| times > 20), "{found:?}");
}
