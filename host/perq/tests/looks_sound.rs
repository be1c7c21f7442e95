//! Partitions that look sound but for one rule, with all else made to fit, as damage at random does not make them. Check of
//! the library, of the reference and of the plain C check refuse them alike.

use perq::{raw, Drive};
use reference::file::{DIRECT, KIND};
use reference::image::{FREE_HEAD, FREE_TAIL, HEADER, NEXT, PREVIOUS, RECORD};
use reference::inspect::file_blocks;
use reference::sample::{fresh, scattered};
use reference::{lda_to_lbn, Answer, DONE};
use trials::big;
use trials::call::same_fields;
use trials::draw::candidates;
use trials::images::{fib_addresses, indexed, pair, pointer_addresses, set_pair, shuffled};
use trials::images::{Place, DATA_WORD};
use trials::plain::agreed;
use trials::settings::rng;
use trials::tally::is_refusal;

/// The answer of all three.
fn check(image: &[u8], place: &Place) -> Answer {
    let answer = agreed(image, place.drive, place.s);
    assert_eq!(same_fields(raw::check(image, place.drive, place.s)), answer, "the library's");
    answer
}

/// A file's links are those of a free chain. With as many unowned blocks as the file has, FreeHead and FreeTail are all that
/// tells.
#[test]
fn a_free_chain_that_is_a_file_s_own() {
    for drive in 0..4 {
        let fits =
            |length: &u32| 2 + 2 * big::in_use(*length) <= Drive::ALL[drive as usize].blocks();
        for length in [0, 1, 2, 64, 65, 193, 4_161].into_iter().filter(fits) {
            let blocks = big::in_use(length);
            let place = Place::whole(drive, 2 + 2 * blocks);
            let mut image = scattered(drive, place.n, place.s, place.e, &[length], 1);
            assert_eq!((check(&image, &place).b, check(&image, &place).c), (blocks, blocks));
            let own = file_blocks(&image, drive, place.s, place.s + 1).expect("a file");
            let (first, last) = (own[0], own[own.len() - 1]);
            set_pair(&mut image, place.s, DATA_WORD + FREE_HEAD, place.lda(first));
            set_pair(&mut image, place.s, DATA_WORD + FREE_TAIL, place.lda(last));
            assert!(is_refusal(check(&image, &place), 5), "{length} blocks on drive {drive}");
        }
    }
}

/// What leads from the PDA of a block to a number that adds up to the same block if some limit is not tested: a sector more
/// than the track has and a track less, a track more than the cylinder has and a cylinder less, a sector that is not a
/// block's first, another high word.
const BESIDE: [i32; 10] =
    [30 - 32, 24 - 256, 24 - 65_536, 4 * 32 - 256, 5 * 256 - 65_536, 1, 2, 3, 65_536, -0x8000_0000];

/// The last link of the free chain, for every place that a cylinder has: no later link tells that it is wrong.
#[test]
fn a_link_that_only_adds_up_to_a_block() {
    for drive in 0..4 {
        for e in 3..=250 {
            let place = Place::whole(drive, e + 1);
            let mut image = fresh(drive, place.n, place.s, e);
            assert_eq!(check(&image, &place).outcome, DONE);
            for beside in BESIDE {
                set_pair(&mut image, e - 1, NEXT, place.pda(e).wrapping_add_signed(beside));
                assert!(is_refusal(check(&image, &place), 5), "{beside} at {e} on drive {drive}");
            }
        }
    }
}

/// The image with block b of file f moved to a block outside of the partition, and every LDA of the file's blocks that named
/// b naming that one. Of the partition's own first block only the header changes.
fn moved_out(image: &[u8], place: &Place, f: u32, b: u32, outside: u32) -> Vec<u8> {
    let own = file_blocks(image, place.drive, place.s, f).expect("a file");
    let pointers = own.iter().copied().take_while(|&block| block != f);
    let mut moved = image.to_vec();
    for at in pointers.flat_map(|block| pointer_addresses().map(move |at| (block, at))) {
        rename(&mut moved, place, at, b, outside);
    }
    fib_addresses().for_each(|at| rename(&mut moved, place, (f, at), b, outside));
    let length = if outside == place.s { HEADER } else { RECORD };
    let from = RECORD * b as usize;
    moved.copy_within(from..from + length, RECORD * outside as usize);
    moved
}

/// Has the data word of this block name another block, if it names b.
fn rename(image: &mut [u8], place: &Place, (block, at): (u32, usize), b: u32, other: u32) {
    let named = lda_to_lbn(place.drive, pair(image, block, DATA_WORD + at));
    if (named.outcome, named.a) == (DONE, b) {
        set_pair(image, block, DATA_WORD + at, place.lda(other));
    }
}

/// Blocks with a file's serial and the right number, but before, at the start of or behind the partition.
#[test]
fn an_index_that_names_blocks_outside_of_the_partition() {
    let mut rng = rng(80);
    for drive in Drive::ALL.map(Drive::number) {
        let place = Place { drive, n: 280, s: 3, e: 277 };
        let image = shuffled(&place, &[1, 65, 193], &mut rng);
        for f in candidates(&image, &place) {
            let own = file_blocks(&image, drive, place.s, f).expect("a file");
            for b in own.into_iter().filter(|&b| b != f) {
                for outside in [place.s - 1, place.s, place.e + 1] {
                    let answer = check(&moved_out(&image, &place, f, b, outside), &place);
                    assert!(is_refusal(answer, 4), "block {b} of {f} at {outside}: {answer:?}");
                    assert_eq!(answer.block, f);
                }
            }
        }
    }
}

/// The same of the blocks through which a big file is found.
#[test]
fn a_double_index_that_names_blocks_outside_of_the_partition() {
    let mut rng = rng(81);
    for (drive, length, relatives) in
        [(0, 4_161, &[-2, -4, -36, 4_160][..]), (2, 20_545, &[-2, -3, -163, -164, 20_544])]
    {
        let e = 3 + big::in_use(length) + 2;
        let place = Place { drive, n: e + 3, s: 3, e };
        let image = shuffled(&place, &[length], &mut rng);
        let f = candidates(&image, &place)[0];
        for &relative in relatives {
            let b = indexed(&image, &place, f, relative).expect("a block of the file");
            for outside in [place.s - 1, place.s, place.e + 1] {
                let answer = check(&moved_out(&image, &place, f, b, outside), &place);
                assert!(is_refusal(answer, 4), "{relative} at {outside}: {answer:?}");
                assert_eq!(answer.block, f);
            }
        }
    }
}

/// Entries of a FIB that nothing needs: any one with a single bit, and any two in a row that add up to nothing in 32 bits.
#[test]
fn unused_entries_that_are_not_nil() {
    for drive in 0..4 {
        let place = Place::whole(drive, 16);
        for length in [0, 1, 9] {
            let image = scattered(drive, place.n, place.s, place.e, &[length], 1);
            let f = candidates(&image, &place)[0];
            let unused = (DIRECT + 2 * length as usize..KIND).step_by(2);
            for (at, bit) in unused.flat_map(|at| (0..32).map(move |bit| (at, 1u32 << bit))) {
                let mut other = image.clone();
                set_pair(&mut other, f, DATA_WORD + at, bit);
                assert_eq!(malformed(&other, &place), f, "{bit} at {at} of {length} blocks");
                if at + 2 < KIND {
                    set_pair(&mut other, f, DATA_WORD + at + 2, bit.wrapping_neg());
                    assert_eq!(malformed(&other, &place), f, "{bit} and its opposite at {at}");
                }
            }
        }
    }
}

/// The malformed candidate by which check is refused.
fn malformed(image: &[u8], place: &Place) -> u32 {
    let answer = check(image, place);
    assert!(is_refusal(answer, 4), "{answer:?}");
    answer.block
}

/// A FIB with a link to a block that it does not go with, of files without data too.
#[test]
fn a_fib_with_another_link() {
    for drive in 0..4 {
        let place = Place::whole(drive, 12);
        let image = scattered(drive, place.n, place.s, place.e, &[0, 0, 2], 1);
        for f in candidates(&image, &place) {
            for at in [NEXT, PREVIOUS] {
                for b in place.s..=place.e {
                    let mut linked = image.clone();
                    if pair(&linked, f, at) == place.pda(b) {
                        continue;
                    }
                    set_pair(&mut linked, f, at, place.pda(b));
                    assert!(is_refusal(check(&linked, &place), 5), "block {b} at {at} of {f}");
                }
            }
        }
    }
}
