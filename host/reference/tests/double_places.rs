//! Request 4: where the index has the address of a block, and what a file of a length consists of.

mod common;
use common::double::{block, one_file};
use reference::file::File;
use reference::index::{place, Level, Place};
use reference::*;

/// The entry of a pointer block.
fn entry(holder: i32, entry: usize) -> Place {
    Place { holder, word: 2 * entry }
}

#[test]
fn places_of_data_blocks() {
    let rows = [
        (4_159, -35, 127),
        (4_160, -36, 0),
        (4_287, -36, 127),
        (4_288, -37, 0),
        (20_543, -163, 127),
        (20_544, -164, 0),
        (32_766, -259, 62),
    ];
    for (r, holder, at) in rows {
        assert_eq!(place(r), entry(holder, at));
    }
    for j in 0..=255 {
        for at in (0..128).filter(|at| 64 + 128 * j + at <= 32_766) {
            assert_eq!(place(64 + 128 * j + at), entry(-(4 + j), at as usize));
        }
    }
}

#[test]
fn places_of_pointer_blocks() {
    let fib = |word| Place { holder: -1, word };
    assert_eq!(place(-4), fib(180));
    assert_eq!(place(-35), fib(180 + 2 * 31));
    assert_eq!(place(-2), fib(244));
    assert_eq!(place(-3), fib(246));
    let rows = [(-36, -2, 0), (-37, -2, 1), (-163, -2, 127), (-164, -3, 0), (-291, -3, 127)];
    for (relative, holder, at) in rows {
        assert_eq!(place(relative), entry(holder, at));
    }
}

#[test]
fn what_a_file_consists_of() {
    // L, pointer blocks over data, -2 and -3, blocks in use, last negative number.
    let rows = [
        (-1, 0, 0, 1, -1),
        (63, 0, 0, 65, -1),
        (64, 1, 0, 67, -4),
        (4_159, 32, 0, 4_193, -35),
        (4_160, 33, 1, 4_196, -36),
        (4_287, 33, 1, 4_323, -36),
        (4_288, 34, 1, 4_325, -37),
        (20_543, 160, 1, 20_706, -163),
        (20_544, 161, 2, 20_709, -164),
        (32_507, 254, 2, 32_765, -257),
        (32_766, 256, 2, 33_026, -259),
    ];
    for (last, pointers, doubles, in_use, last_negative) in rows {
        let file = File { f: 2, last };
        assert_eq!((file.count(Level::Pointer), file.count(Level::Double)), (pointers, doubles));
        assert_eq!((file.blocks_in_use(), file.last_negative()), (in_use, last_negative));
        let linked: Vec<i32> = file.linked().collect();
        let negative = (last_negative..=-4).chain(-1 - doubles as i32..=-2);
        assert_eq!(linked, negative.chain(-1..=last).collect::<Vec<i32>>());
        assert!(linked.windows(2).all(|pair| file.next(pair[0]) == Some(pair[1])));
        assert!(linked.windows(2).all(|pair| file.previous(pair[1]) == Some(pair[0])));
        assert_eq!((file.previous(linked[0]), file.next(last)), (None, None));
    }
}

#[test]
fn blocks_in_link_order() {
    let image = one_file(20_600, 20_800);
    let order = (-164..=-4).chain(-3..20_600).map(block);
    let expected: Vec<u32> = order.collect();
    assert_eq!(inspect::file_blocks(&image, common::double::DRIVE, 1, 2), Some(expected));
}

#[test]
fn every_block_is_read() {
    let image = one_file(20_600, 20_800);
    for r in [0, 63, 64, 4_159, 4_160, 4_287, 4_288, 20_543, 20_544, 20_599] {
        let at = 528 * block(r) + 16;
        let shown = show(&image, common::double::DRIVE, 1, 2, r as u32);
        assert_eq!(shown, Answer { a: at, b: 512, ..Answer::default() });
        let mut data = [0; 512];
        assert_eq!(read(&image, 1, 1, 2, r as u32, &mut data), Answer::default());
        assert_eq!(data, sample::content(5, 0, r as u32));
    }
    assert_eq!(show(&image, 1, 1, 2, 20_600), common::absent());
    assert_eq!(show(&image, 1, 1, 2, 32_766), common::absent());
    assert_eq!(show(&image, 1, 1, 2, 32_767), common::refused(7));
}
