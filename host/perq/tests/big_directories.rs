//! A directory with a double index is looked through to its last block.

use perq::{look_up, tree, Drive, Refusal, Rule, Target};
use reference::file::DOUBLE;
use reference::image::RECORD;
use reference::tree_sample::set_root;
use trials::big::{self, FILE, OTHER};
use trials::both::Both;
use trials::call::Name;
use trials::images::{indexed, set_pair, Place, DATA_WORD};

const DRIVE: Drive = Drive::Shugart12;
const LENGTH: u32 = 4_200;
/// The rule by which all names select blocks 0, 31, 62, ..., 4,154 and 4,185.
const RULE: Rule = Rule::Weights([0; 26]);

/// A root of 4,200 blocks that is empty but for entries which name the other file: A in block 4,154, B in 4,185, which is
/// found through -2, and C in the block behind it, which no name selects.
fn planted() -> (Place, Vec<u8>) {
    let place = big::place(DRIVE.number(), LENGTH, 5);
    let mut image = big::image(&place, LENGTH);
    for r in 0..LENGTH {
        let letter = match r {
            4_154 => b'A',
            4_185 => b'B',
            4_186 => b'C',
            _ => 0,
        };
        let b = indexed(&image, &place, FILE, r as i32).expect("a block of the root");
        let data = &mut image[RECORD * b as usize + 16..][..512];
        data.fill(0);
        if letter != 0 {
            data[0] = 1;
            data[2..6].copy_from_slice(&place.lda(OTHER).to_le_bytes());
            data[6..8].copy_from_slice(&[1, letter]);
        }
    }
    set_root(&mut image, place.s, place.lda(FILE));
    (place, image)
}

#[test]
fn entries_beyond_4159_are_found() {
    let (place, image) = planted();
    let led = |rule: &Rule, path: &str| look_up(&image, DRIVE, place.s, rule, path.as_bytes());
    for (path, by_rule, without) in [("a", true, true), ("b", true, true), ("c", false, true)] {
        let found = |there: bool| Ok(there.then_some(Target::File(OTHER)));
        assert_eq!(led(&RULE, path), found(by_rule), "{path}");
        assert_eq!(led(&Rule::Unknown, path), found(without), "{path}");
    }
    for (rule, names) in [(RULE, &["A", "B"][..]), (Rule::Unknown, &["A", "B", "C"])] {
        let rows = tree(&image, DRIVE, place.s, &rule, 9).expect("a root").rows;
        let found: Vec<&[u8]> = rows.iter().map(|row| &row.name[..]).collect();
        assert_eq!(found, names.iter().map(|name| name.as_bytes()).collect::<Vec<&[u8]>>());
    }
}

#[test]
fn the_reference_has_the_same_of_it() {
    let (place, image) = planted();
    let mut both = Both::new(image);
    for rule in [RULE, Rule::Unknown] {
        for path in ["", "A", "b", "C", "D", "A>B"] {
            let call = place.call(Name::LookUp).with_rule(rule.bytes());
            both.call(&call.with_path(path.as_bytes()));
        }
        for rows in [0, 1, 2, 3, 9] {
            let call = place.call(Name::Tree).with_rule(rule.bytes());
            both.call(&call.with_buffer(&vec![0xA5; perq::ROW * rows]));
        }
    }
}

#[test]
fn a_root_with_a_damaged_double_index_is_no_file() {
    let (place, mut image) = planted();
    set_pair(&mut image, FILE, DATA_WORD + DOUBLE, 0);
    assert_eq!(look_up(&image, DRIVE, place.s, &RULE, b"a"), Err(Refusal::NoFile));
    assert_eq!(tree(&image, DRIVE, place.s, &RULE, 9), Err(Refusal::NoFile));
}
