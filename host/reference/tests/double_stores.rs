//! Request 4: store lists and whole records of append and destroy at the edges of the double index, and
//! the free blocks that they need.

mod common;
use common::double::*;
use common::*;
use reference::*;

#[test]
fn append_store_lists() {
    // r, then the stores by relative number; FIB, new first free block and PIB follow.
    let rows: [(u32, &[i32]); 9] = [
        (64, &[64, -4, 63]),
        (192, &[192, -5, 191, -4]),
        (4_159, &[4_159, -35, 4_158]),
        (4_160, &[4_160, -36, -2, -4, 4_159, -35]),
        (4_161, &[4_161, -36, 4_160]),
        (4_288, &[4_288, -37, -2, 4_287, -36]),
        (20_543, &[20_543, -163, 20_542]),
        (20_544, &[20_544, -164, -3, -4, -2, 20_543, -163]),
        (20_545, &[20_545, -164, 20_544]),
    ];
    for (r, file) in rows {
        let e = end(r, 9);
        let plan = plan_write(&one_file(r, e), DRIVE, 1, 2, r, &[9; 512]);
        let first_free = 2 + in_use(r + 1);
        let stores: Vec<u32> =
            file.iter().map(|&relative| block(relative)).chain([2, first_free, 1]).collect();
        assert_eq!(blocks(&plan), stores);
        assert_eq!(plan.answer, made(stores.len() as u32));
        assert_eq!(plan.deciding, file.len());
        let mut grown = one_file(r, e);
        write(&mut grown, DRIVE, 1, 2, r, &sample::content(5, 0, r), ALL);
        assert!(grown == one_file(r + 1, e));
    }
}

/// Fillers and data of the three blocks that are taken, which stay or are cleared.
fn with_old_words(image: &[u8], data: u32) -> Vec<u8> {
    let fillers = [(data, 3, 0xAAAA), (data + 1, 3, 0xBBBB), (data + 2, 3, 0xCCCC)];
    let entries = [(data + 1, 8 + 100, lda(3)), (data + 2, 8, lda(4)), (data + 2, 8 + 254, 77)];
    with(image, &fillers, &entries)
}

/// The image with a data block of nines.
fn nines(image: &[u8], b: u32) -> Vec<u8> {
    let mut image = image.to_vec();
    image[528 * b as usize + 16..][..512].fill(9);
    image
}

/// L = 4,159 becomes 4,160: 4160 is block 4,195, -36 is 4,196, -2 is 4,197.
#[test]
fn append_with_minus_2() {
    let before = with_old_words(&one_file(4_160, 4_210), 4_195);
    let mut after = before.clone();
    assert_eq!(write(&mut after, DRIVE, 1, 2, 4_160, &[9; 512], ALL), made(9));
    let numbers = [(4_195, 2, 4_160), (4_196, 2, -36_i16 as u16), (4_197, 2, -2_i16 as u16)];
    let fib = [(2, 8 + 249, 4_196), (2, 8 + 250, 4_160), (2, 8 + 253, -36_i16 as u16)];
    let serials = [4_195, 4_196, 4_197].map(|b| (b, 0, pda(2)));
    // Next and previous: 4159 and 4160; nothing, -36 and -35; -4, -2 and the FIB.
    let links = [
        (block(4_159), 4, pda(4_195)),
        (4_195, 6, pda(block(4_159))),
        (4_195, 4, 0),
        (4_196, 6, 0),
        (4_196, 4, pda(block(-35))),
        (block(-35), 6, pda(4_196)),
        (block(-4), 4, pda(4_197)),
        (4_197, 6, pda(block(-4))),
        (4_197, 4, pda(2)),
        (2, 6, pda(4_197)),
    ];
    let entries = [
        (4_196, 8, lda(4_195)),
        (4_196, 8 + 100, 0),
        (4_197, 8, lda(4_196)),
        (4_197, 8 + 254, 0),
        (2, 8 + 244, lda(4_197)),
        (2, 8 + 251, lda(4_195)),
        (2, 8 + 254, lda(4_196)),
    ];
    let free = [(4_198, 6, 0), (1, 8, lda(4_198)), (1, 8 + 4, 4_210 - 4_197)];
    let words = [&numbers[..], &fib, &[(4_198, 3, 4_198)]].concat();
    let pairs = [&serials[..], &links, &entries, &free].concat();
    assert!(after == with(&nines(&before, 4_195), &words, &pairs));
    assert_eq!(check(&after, DRIVE, 1), Answer { a: 1, b: 4_196, c: 13, ..Answer::default() });
}

/// L = 20,543 becomes 20,544: 20544 is block 20,708, -164 is 20,709, -3 is 20,710.
#[test]
fn append_with_minus_3() {
    let before = with_old_words(&one_file(20_544, 20_720), 20_708);
    let mut after = before.clone();
    assert_eq!(write(&mut after, DRIVE, 1, 2, 20_544, &[9; 512], ALL), made(10));
    let numbers = [(20_708, 2, 20_544), (20_709, 2, -164_i16 as u16), (20_710, 2, -3_i16 as u16)];
    let fib = [(2, 8 + 249, 20_709), (2, 8 + 250, 20_544), (2, 8 + 253, -164_i16 as u16)];
    let serials = [20_708, 20_709, 20_710].map(|b| (b, 0, pda(2)));
    // Next and previous: 20543 and 20544; nothing, -164 and -163; -4, -3 and -2, which is 4,197.
    let links = [
        (block(20_543), 4, pda(20_708)),
        (20_708, 6, pda(block(20_543))),
        (20_708, 4, 0),
        (20_709, 6, 0),
        (20_709, 4, pda(block(-163))),
        (block(-163), 6, pda(20_709)),
        (block(-4), 4, pda(20_710)),
        (20_710, 6, pda(block(-4))),
        (20_710, 4, pda(4_197)),
        (4_197, 6, pda(20_710)),
    ];
    let entries = [
        (20_709, 8, lda(20_708)),
        (20_709, 8 + 100, 0),
        (20_710, 8, lda(20_709)),
        (20_710, 8 + 254, 0),
        (2, 8 + 246, lda(20_710)),
        (2, 8 + 251, lda(20_708)),
        (2, 8 + 254, lda(20_709)),
    ];
    let free = [(20_711, 6, 0), (1, 8, lda(20_711)), (1, 8 + 4, 20_720 - 20_710)];
    let words = [&numbers[..], &fib, &[(20_711, 3, 20_711)]].concat();
    let pairs = [&serials[..], &links, &entries, &free].concat();
    assert!(after == with(&nines(&before, 20_708), &words, &pairs));
    assert_eq!(check(&after, DRIVE, 1), Answer { a: 1, b: 20_709, c: 10, ..Answer::default() });
}

/// L = 4,287 becomes 4,288: -2 gains its second entry and keeps its links.
#[test]
fn append_with_an_entry_of_minus_2() {
    let before = one_file(4_288, 4_340);
    let mut after = before.clone();
    assert_eq!(write(&mut after, DRIVE, 1, 2, 4_288, &[9; 512], ALL), made(8));
    let (data, pointer) = (block(4_288), block(-37));
    assert_eq!((data, pointer), (4_325, 4_326));
    let changed: Vec<usize> = (0..264)
        .filter(|&at| word(&before, block(-2), at) != word(&after, block(-2), at))
        .collect();
    assert_eq!(changed, [8 + 2, 8 + 3]);
    assert_eq!(pair(&after, block(-2), 8 + 2), lda(pointer));
    assert_eq!(pair(&after, pointer, 8), lda(data));
    assert_eq!((pair(&after, block(-36), 6), pair(&after, pointer, 4)), (pda(pointer), pda(4_196)));
    assert_eq!((pair(&after, 2, 8 + 244), pair(&after, 2, 8 + 246)), (lda(4_197), 0));
}

#[test]
fn full_at_two_three_and_four_free_blocks() {
    // r, and the blocks that its append needs: one free block more must be there.
    for (r, needs) in [(4_161, 1), (4_288, 2), (4_160, 3), (20_543, 1), (20_544, 3), (20_672, 2)] {
        for (free, number) in [(needs, 8), (needs + 1, 0)] {
            let mut image = one_file(r, end(r, free));
            let before = image.clone();
            assert_eq!(check(&image, DRIVE, 1).c, free);
            let answer = write(&mut image, DRIVE, 1, 2, r, &[9; 512], ALL);
            assert_eq!((answer.number, image == before), (number, number == 8));
            let left = if number == 8 { free } else { 1 };
            assert_eq!(check(&image, DRIVE, 1).c, left);
        }
        let mut image = one_file(r, end(r, 1));
        assert_eq!(write(&mut image, DRIVE, 1, 2, r + 1, &[9; 512], ALL), refused(7));
        assert_eq!(write(&mut image, DRIVE, 1, 2, r - 1, &[9; 512], ALL), made(1));
    }
}

#[test]
fn destroy_with_a_double_index() {
    for (length, most_negative, negatives) in [(4_161, -36, 34), (20_545, -164, 163)] {
        let e = end(length, 5);
        let before = one_file(length, e);
        let (first, last) = (block(most_negative), block(length as i32 - 1));
        let plan = plan_destroy(&before, DRIVE, 1, 2);
        assert_eq!((blocks(&plan), plan.deciding), (vec![2, first, last, e, 1], 0));
        let mut after = before.clone();
        assert_eq!(destroy(&mut after, DRIVE, 1, 2, ALL), made(5));
        let words = [(first, 3, (e - 4) as u16), (last, 3, (e - 4) as u16)];
        let serials = [(2, 0, 0), (first, 0, 0), (last, 0, 0)];
        let links = [(first, 6, pda(e)), (e, 4, pda(first))];
        let pib = [(1, 8 + 2, lda(last)), (1, 8 + 4, e - 1)];
        assert!(after == with(&before, &words, &[&serials[..], &links, &pib].concat()));
        let chain = inspect::free_chain(&after, DRIVE, 1).unwrap();
        let order = (most_negative..=-4).chain(-1 - doubles(length) as i32..length as i32);
        assert_eq!(chain[..5], [e - 4, e - 3, e - 2, e - 1, e]);
        assert_eq!(chain[5..], order.map(block).collect::<Vec<u32>>());
        assert_eq!(chain[5 + negatives], 2);
    }
}

/// m = 32,767: the PIB, one free block, and 1 + 32,508 + 254 + 2 blocks of the file.
#[test]
fn the_largest_file_that_fits() {
    let mut image = one_file(32_507, 32_767);
    assert_eq!(check(&image, DRIVE, 1), Answer { a: 1, b: 32_764, c: 2, ..Answer::default() });
    let data = sample::content(5, 0, 32_507);
    assert_eq!(write(&mut image, DRIVE, 1, 2, 32_507, &data, ALL), made(6));
    assert!(image == one_file(32_508, 32_767));
    assert_eq!(check(&image, DRIVE, 1), Answer { a: 1, b: 32_765, c: 1, ..Answer::default() });
    assert_eq!(write(&mut image, DRIVE, 1, 2, 32_508, &data, ALL), refused(8));
    assert_eq!(write(&mut image, DRIVE, 1, 2, 32_509, &data, ALL), refused(7));
    assert_eq!(create(&mut image, DRIVE, 1, 0, ALL), refused(8));
    assert_eq!(show(&image, DRIVE, 1, 2, 32_507).a, 528 * block(32_507) + 16);
    assert_eq!(show(&image, DRIVE, 1, 2, 32_508), absent());
    assert_eq!(write(&mut image, DRIVE, 1, 2, 0, &[9; 512], ALL), made(1));
    let whole = image.clone();
    assert_eq!(repair(&mut image, DRIVE, 1, ALL), made(32_767));
    assert!(image == with(&whole, &[(32_767, 3, 32_767)], &[]));
    assert_eq!(destroy(&mut image, DRIVE, 1, 2, ALL), made(5));
    assert_eq!(check(&image, DRIVE, 1), Answer { c: 32_766, ..Answer::default() });
}
