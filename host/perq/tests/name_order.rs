//! Where 12 stands among the refusals of describe: after 1, 2 and 3, before 4, 5 and 6, whichever rule the name breaks.

use reference::image::RECORD;
use reference::sample::{named, random_name, scattered};
use reference::REFUSED;
use trials::both::Both;
use trials::call::{Call, Name};
use trials::cuts::every_limit;
use trials::damage::damage;
use trials::images::{set_pair, set_word, Place, DATA_WORD};
use trials::settings::{cases, rng};

const PLACE: Place = Place { drive: 3, n: 12, s: 1, e: 10 };
const FILE: u32 = 2;

/// File 2 of three blocks, file 3 of none.
fn image() -> Vec<u8> {
    scattered(PLACE.drive, PLACE.n, PLACE.s, PLACE.e, &[3, 0], 5)
}

fn describe(description: &[u8]) -> Call {
    PLACE.call(Name::Describe).with_file(FILE).with_buffer(description)
}

/// One name for each rule.
const BAD: [&[u8]; 5] = [b"", b"a\x1f", b"a:b", b"a>", b"a>..>b"];

/// A call and its image with what brings a number about; 0 for nothing.
fn under(number: u32, description: &[u8]) -> (Both, Call) {
    let (mut image, mut call) = (image(), describe(description));
    match number {
        0 => {}
        1 => image.truncate(RECORD * 11 + 1),
        2 => set_pair(&mut image, PLACE.s, DATA_WORD + 120, 0),
        3 => call.buffer.truncate(103),
        4 => set_word(&mut image, FILE + 1, DATA_WORD + 249, 9),
        5 => set_pair(&mut image, PLACE.s, DATA_WORD + 4, 99),
        6 => call.f = PLACE.e,
        _ => unreachable!("describe has no such refusal: {number}"),
    }
    (Both::new(image), call)
}

/// The numbers before 12 are given where the name is bad, too; those after it only where it is good.
#[test]
fn the_order_is_1_2_3_12_4_5_6() {
    for number in 0..=6 {
        let (mut both, call) = under(number, &named(b"letter"));
        assert_eq!(both.call(&call).number, number, "a good name");
        for name in BAD {
            let (mut both, call) = under(number, &named(name));
            let expected = if (1..=3).contains(&number) { number } else { 12 };
            let answer = every_limit(&mut both, &call);
            assert_eq!((answer.outcome, answer.number), (REFUSED, expected), "under {number}");
            assert_eq!(answer.block, 0, "{answer:?}");
            assert!(both.image() == under(number, &named(name)).0.image(), "under {number}");
        }
    }
}

/// On damaged partitions: 12 whatever the damage and the file, unless image or partition is bad.
#[test]
fn damaged_partitions() {
    let (mut rng, mut met) = (rng(101), [0; 13]);
    for _ in 0..cases(20_000) {
        let mut image = image();
        (0..rng.below(3)).for_each(|_| damage(&mut image, &PLACE, &mut rng));
        let description = random_name(&mut rng);
        let f = [FILE, FILE + 1, PLACE.e, 0][rng.below(4) as usize];
        let mut both = Both::new(image);
        let good = both.clone().call(&describe(&named(b"letter")).with_file(f)).number;
        let bad = both.call(&Call::name_of(&description)).a > 0;
        let answer = both.call(&describe(&description).with_file(f));
        let expected = if bad && !(1..=2).contains(&good) { 12 } else { good };
        assert_eq!(answer.number, expected, "{}", description.escape_ascii());
        met[answer.number as usize] += 1;
    }
    assert!([0, 2, 4, 5, 6, 12].iter().all(|&number| met[number] > 0), "{met:?}");
}
