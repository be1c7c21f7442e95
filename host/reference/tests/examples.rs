//! The examples M1 to M12 of document 01.

mod common;
use common::*;
use reference::index::{place, Place};
use reference::*;

/// Two words as document 01 writes them: low, high.
fn words(low: u32, high: u32) -> u32 {
    low + 65536 * high
}

#[test]
fn m1_to_m6_addresses() {
    let value = |answer: Answer| {
        assert_eq!(answer, Answer { a: answer.a, ..Answer::default() });
        answer.a
    };
    let pdas = [
        (1, 210, words(0o000400, 0)),
        (0, 210, words(0o001000, 0)),
        (0, 24_209, words(0o144575, 0)),
        (1, 48_449, words(0o144775, 0)),
        (2, 69_551, words(0o002027, 0o001103)),
        (3, 431, words(0o000027, 0o000114)),
        (0, 0, words(0o000040, 0)),
        (1, 0, words(0o000040, 0)),
    ];
    for (drive, lbn, pda) in pdas {
        assert_eq!(value(lbn_to_pda(drive, lbn)), pda);
        assert_eq!(value(pda_to_lbn(drive, pda)), lbn);
    }
    let ldas = [(1, 210, words(0o151000, 0o140000)), (2, 69_551, words(0o127400, 0o140417))];
    for (drive, lbn, lda) in ldas {
        assert_eq!(value(lbn_to_lda(drive, lbn)), lda);
        assert_eq!(value(lda_to_lbn(drive, lda)), lbn);
    }
}

#[test]
fn m7_m8_fileids() {
    assert_eq!(lbn_to_fileid(3, 431).a, 57_775);
    assert_eq!(fileid_to_lbn(3, 57_775).a, 431);
    let ten = Answer { outcome: REFUSED, number: 10, ..Answer::default() };
    assert_eq!(lbn_to_fileid(2, 57_344), ten);
    assert_eq!(fileid_to_lbn(2, 57_344), ten);
    assert_eq!(lbn_to_fileid(2, 57_343).a, 57_343);
}

#[test]
fn m9_to_m11_places() {
    let rows = [(191, -4, 127), (192, -5, 0), (4_159, -35, 127), (64, -4, 0)];
    for (r, holder, entry) in rows {
        assert_eq!(place(r), Place { holder, word: 2 * entry });
    }
    assert_eq!(place(63), Place { holder: -1, word: 52 + 2 * 63 });
}

fn free(image: &[u8]) -> Vec<u32> {
    inspect::free_chain(image, 0, 1).expect("sound")
}

fn last(image: &[u8]) -> i32 {
    let files = inspect::files(image, 0, 1).expect("sound");
    assert_eq!((files.len(), files[0].f), (1, 2));
    files[0].last
}

/// The image before the second append, and the plan of that append.
fn before_second_append() -> (Vec<u8>, Plan) {
    let mut image = sample::blank(0, 8, 1, 7);
    assert_eq!(repair(&mut image, 0, 1, ALL).made, 7);
    assert_eq!(image, sample::fresh(0, 8, 1, 7));
    assert_eq!(free(&image), [2, 3, 4, 5, 6, 7]);

    let plan = plan_create(&image, 0, 1, 9);
    assert_eq!((plan.answer.a, blocks(&plan), plan.deciding), (2, vec![2, 3, 1], 0));
    assert_eq!(create(&mut image, 0, 1, 9, ALL), Answer { a: 2, ..made(3) });
    assert_eq!(free(&image), [3, 4, 5, 6, 7]);
    assert_eq!(last(&image), -1);

    let plan = plan_write(&image, 0, 1, 2, 0, &[5; 512]);
    assert_eq!((blocks(&plan), plan.deciding), (vec![3, 2, 4, 1], 1));
    let answer = write(&mut image, 0, 1, 2, 0, &[5; 512], ALL);
    assert_eq!(answer, made(4));
    assert_eq!(free(&image), [4, 5, 6, 7]);
    assert_eq!(last(&image), 0);

    let plan = plan_write(&image, 0, 1, 2, 1, &[6; 512]);
    assert_eq!((blocks(&plan), plan.deciding), (vec![4, 3, 2, 5, 1], 2));
    (image, plan)
}

#[test]
fn m12_cuts_and_repairs() {
    let (before, plan) = before_second_append();
    for limit in 0..=6 {
        let mut image = before.clone();
        let answer = write(&mut image, 0, 1, 2, 1, &[6; 512], limit);
        assert_eq!(answer, made(limit.min(5)));
        assert_eq!(plan.answer, made(5));
        let mut block = [1; 512];
        assert_eq!(check(&image, 0, 1).outcome == DONE, limit == 0 || limit >= 5);
        assert_eq!(repair(&mut image, 0, 1, ALL), made(7));
        assert_eq!(read(&image, 0, 1, 2, 0, &mut block), Answer::default());
        assert_eq!(block, [5; 512]);
        let second = read(&image, 0, 1, 2, 1, &mut block);
        if limit <= 2 {
            assert_eq!((last(&image), free(&image)), (0, vec![4, 5, 6, 7]));
            assert_eq!((second.outcome, block), (ABSENT, [0; 512]));
        } else {
            assert_eq!((last(&image), free(&image)), (1, vec![5, 6, 7]));
            assert_eq!((second.outcome, block), (DONE, [6; 512]));
        }
    }
}

#[test]
fn m12_destroy() {
    let (mut image, _) = before_second_append();
    write(&mut image, 0, 1, 2, 1, &[6; 512], ALL);
    assert_eq!(free(&image), [5, 6, 7]);
    assert_eq!(inspect::file_blocks(&image, 0, 1, 2), Some(vec![2, 3, 4]));
    assert_eq!(check(&image, 0, 1), Answer { a: 1, b: 3, c: 3, ..Answer::default() });

    let plan = plan_destroy(&image, 0, 1, 2);
    assert_eq!((blocks(&plan), plan.deciding), (vec![2, 4, 7, 1], 0));
    assert_eq!(destroy(&mut image, 0, 1, 2, ALL), made(4));
    assert_eq!(free(&image), [5, 6, 7, 2, 3, 4]);
    assert_eq!(check(&image, 0, 1), Answer { c: 6, ..Answer::default() });
    // Serial, relative number, filler, next, previous; the PDA of these LBNs is 32 more.
    let header = |b| [0, 1, 2, 3, 4, 5, 6, 7].map(|at| word(&image, b, at));
    assert_eq!(header(2), [0, 0, 0xFFFF, 5, 35, 0, 39, 0]);
    assert_eq!(header(3), [34, 0, 0, 3, 36, 0, 34, 0]);
    assert_eq!(header(4), [0, 0, 1, 5, 0, 0, 35, 0]);
}
