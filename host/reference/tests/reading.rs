//! Next file, read, show, show of a pair, description and extract where they are not refused.

mod common;
use common::*;
use reference::*;

const LENGTHS: [u32; 4] = [200, 0, 3, 64];

/// Drive 2, partition 5..300: files at 6, 7, 8 and 9.
fn image() -> Vec<u8> {
    sample::scattered(2, 310, 5, 300, &LENGTHS, 3)
}

#[test]
fn next_file_goes_upwards() {
    let mut image = image();
    for (after, next) in [(0, 6), (5, 6), (6, 7), (7, 8), (8, 9)] {
        assert_eq!(next_file(&image, 2, 5, after), Answer { a: next, ..Answer::default() });
    }
    for after in [9, 299, 300, 309, 310, u32::MAX] {
        assert_eq!(next_file(&image, 2, 5, after), absent());
    }
    set_word(&mut image, 8, 8 + 253, 0); // malformed, so no file
    assert_eq!(next_file(&image, 2, 5, 7).a, 9);
}

#[test]
fn read_show_and_extract_agree() {
    let image = image();
    for (i, &length) in LENGTHS.iter().enumerate() {
        let f = 6 + i as u32;
        let mut whole = vec![0; 512 * length as usize];
        assert_eq!(extract(&image, 2, 5, f, &mut whole), Answer { a: length, ..Answer::default() });
        for r in 0..length {
            let data = sample::content(3, i, r);
            let mut block = [0; 512];
            assert_eq!(read(&image, 2, 5, f, r, &mut block), Answer::default());
            assert_eq!(block, data);
            let shown = show(&image, 2, 5, f, r);
            assert_eq!(shown, Answer { a: shown.a, b: 512, ..Answer::default() });
            assert_eq!(image[shown.a as usize..][..512], data);
            assert_eq!(whole[512 * r as usize..][..512], data);
        }
        for r in [length, 4_159, 4_160, 20_544, 32_766] {
            let mut block = [1; 512];
            assert_eq!(read(&image, 2, 5, f, r, &mut block), absent());
            assert_eq!(block, [0; 512]);
            assert_eq!(show(&image, 2, 5, f, r), absent());
        }
    }
}

#[test]
fn reading_needs_no_sound_partition() {
    let mut image = image();
    let good = show(&image, 2, 5, 6, 199);
    for b in 5..=300 {
        set_pair(&mut image, b, 4, 0xDEAD_BEEF);
        set_pair(&mut image, b, 6, 0xDEAD_BEEF);
    }
    set_word(&mut image, 9, 8 + 253, 0);
    assert_eq!(show(&image, 2, 5, 6, 199), good);
    assert_eq!(description(&image, 2, 5, 6, &mut [0; 104]), Answer::default());
}

/// In the repaired image the file at 7 has one block, the file at 8 is gone, 6 is malformed.
fn original_and_repaired() -> (Vec<u8>, Vec<u8>) {
    let original = image();
    let mut repaired = original.clone();
    write(&mut repaired, 2, 5, 7, 0, &[1; 512], ALL);
    destroy(&mut repaired, 2, 5, 8, ALL);
    set_word(&mut repaired, 6, 8 + 249, 0);
    (original, repaired)
}

fn from(answer: Answer, c: u32) -> Answer {
    Answer { c, ..answer }
}

#[test]
fn show_of_a_pair() {
    let (original, repaired) = original_and_repaired();
    let pair = |f, r| show_pair(&original, &repaired, 2, 5, f, r);
    assert_eq!(pair(7, 0), from(show(&repaired, 2, 5, 7, 0), 1));
    assert_eq!(pair(7, 0).outcome, DONE);
    assert_eq!(pair(7, 1), from(absent(), 1));
    assert_eq!(pair(8, 2), from(show(&original, 2, 5, 8, 2), 2));
    assert_eq!(pair(8, 2).b, 512);
    assert_eq!(pair(8, 3), from(absent(), 2));
    assert_eq!(pair(6, 0), from(show(&original, 2, 5, 6, 0), 2));
    assert_eq!(pair(8, 32_766), from(absent(), 2));
    assert_eq!(pair(8, 32_767), from(refused(7), 2));
    assert_eq!(pair(10, 0), from(refused(6), 2));
    let of = |original, repaired, f| show_pair(original, repaired, 2, 5, f, 0);
    assert_eq!(of(&repaired, &repaired, 6), from(malformed(6), 2));
    let shown = show(&original, 2, 5, 9, 0);
    assert_eq!(of(&original, &[], 9), from(shown, 2));
    assert_eq!(of(&[], &original, 9), from(shown, 1));
    assert_eq!(of(&[], &[], 9), from(refused(1), 2));
}
