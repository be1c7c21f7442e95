//! The plain C check, which the benchmark measures the library against, gives the reference's answers: on the benchmark's
//! shapes, on every field of a damaged partition, and on any bytes. The images lie against a page that traps.

use perq::Drive;
use reference::file::FIB;
use reference::image::{PARTITION_END, PARTITION_START, RECORD, RELATIVE, SERIAL};
use reference::sample::{fresh, Rng};
use reference::{Answer, DONE};
use trials::big;
use trials::call::{Call, Name};
use trials::damage::{self, Field};
use trials::draw::candidates;
use trials::guard::{Guarded, Side};
use trials::images::{indexed, is_candidate, is_pointer, set_pair, set_word, shuffled};
use trials::images::{some_lengths, Place, DATA_WORD};
use trials::low_bits;
use trials::plain::agreed;
use trials::settings::{cases, long_run, rng};
use trials::shapes::Shape;
use trials::sweep;
use trials::tally::{is_refusal, Tally};

/// The answer to an image with nothing behind its last byte, or before its first one.
fn check_between_traps(image: &[u8], drive: u32, s: u32) -> Answer {
    let mut guarded = Guarded::new(image.len());
    agreed(guarded.lend(image, Side::Start), drive, s);
    agreed(guarded.lend(image, Side::End), drive, s)
}

#[test]
fn the_shapes_of_the_benchmark() {
    let mut rng = rng(70);
    for drive in Drive::ALL {
        for m in [10, 200, 431, 9_000, 32_767].into_iter().filter(|&m| m < drive.blocks()) {
            let place = Place::whole(drive.number(), m + 1);
            for shape in Shape::ALL {
                let image = shape.image(place.drive, m);
                for image in low_bits::both_ways(image, &place, &mut rng) {
                    let answer = check_between_traps(&image, place.drive, place.s);
                    assert_eq!(answer.outcome, DONE, "{shape:?} of {m} blocks on {drive:?}");
                    assert_eq!(answer.b + answer.c, m - 1);
                }
            }
        }
    }
}

/// A partition with an empty file, a short one, one with a full index of direct entries, and one each with one and with two
/// pointer blocks; without reserved bits in its LDAs, and with some in each.
fn base(drive: u32, rng: &mut Rng) -> (Place, [Vec<u8>; 2]) {
    let place = Place { drive, n: 366, s: 3, e: 363 };
    let image = shuffled(&place, &[0, 2, 64, 65, 193], rng);
    (place, low_bits::both_ways(image, &place, rng))
}

/// The fields of block b that check reads, and some that it does not.
fn fields(image: &[u8], place: &Place, b: u32) -> Vec<Field> {
    let mut fields = damage::header_fields();
    if b == place.s {
        fields.extend(damage::pib_fields());
    } else if is_candidate(image, place, b) {
        fields.extend(damage::fib_fields());
    } else if is_pointer(image, b) {
        fields.extend(damage::pointer_fields());
    }
    fields
}

/// Puts every likely value into each field of these blocks that is to be tried, one at a time.
fn try_blocks(
    image: &[u8],
    place: &Place,
    blocks: &[u32],
    is_tried: impl Fn(&Field) -> bool,
    tally: &mut Tally,
) {
    let mut guarded = Guarded::new(image.len());
    let image = guarded.lend(image, Side::End);
    for &b in blocks {
        for field in fields(image, place, b).into_iter().filter(&is_tried) {
            let old = damage::get(image, b, field);
            for value in damage::values(image, place, b, field) {
                damage::set(image, b, field, value);
                tally.add(&place.call(Name::Check), agreed(image, place.drive, place.s));
            }
            damage::set(image, b, field, old);
        }
    }
}

/// The blocks whose fields are tried on the image of this turn, of eight. All of them in a long run; otherwise two of those
/// with an index, so that over the turns each has its own twice, and an eighth of the others.
fn due(image: &[u8], place: &Place, turn: usize) -> Vec<u32> {
    let (indexes, others): (Vec<u32>, Vec<u32>) = (place.s + 1..=place.e)
        .partition(|&b| is_candidate(image, place, b) || is_pointer(image, b));
    let of_turn = |blocks: Vec<u32>, turns: usize| {
        let is_due = move |&(at, _): &(usize, u32)| long_run() || at % turns == turn % turns;
        blocks.into_iter().enumerate().filter(is_due).map(|(_, b)| b)
    };
    [place.s].into_iter().chain(of_turn(indexes, 4)).chain(of_turn(others, 8)).collect()
}

/// Asserts that each of these outcomes was met: 0 for sound, or a refusal's number.
fn must_have_met(tally: &Tally, outcomes: &[u32]) {
    for &outcome in outcomes {
        assert!(tally.times(Name::Check, outcome) > 0, "no {outcome} in {tally:?}");
    }
}

#[test]
fn each_field_of_a_sound_partition() {
    let (mut rng, mut tally) = (rng(71), Tally::default());
    for drive in 0..4 {
        let (place, images) = base(drive, &mut rng);
        for (turn, image) in (drive as usize..).step_by(4).zip(images) {
            try_blocks(&image, &place, &due(&image, &place, turn), |_| true, &mut tally);
        }
    }
    must_have_met(&tally, &[0, 2, 4, 5]);
}

/// The blocks through which a big file is found: its own, -2, -3, and pointer blocks that each of them names. Of their fields
/// these are the header, the first entries and the last ones, and in the file's own block the double entries and all that
/// follows.
#[test]
fn fields_of_a_big_index() {
    let (mut rng, mut tally) = (rng(74), Tally::default());
    let is_at_an_end = |field: &Field| !(DATA_WORD + 6..DATA_WORD + 240).contains(&field.at);
    for (drive, length, relatives) in
        [(0, 4_290, &[-1, -2, -4, -35, -36, -37][..]), (2, 20_546, &[-2, -3, -163, -164])]
    {
        let place = big::place(drive, length, 2);
        let image = shuffled(&place, &[length, big::SHORT], &mut rng);
        let f = candidates(&image, &place).into_iter().max_by_key(|&f| sweep::length(&image, f));
        let block = |&relative: &i32| indexed(&image, &place, f.expect("two files"), relative);
        let blocks: Vec<u32> = relatives.iter().filter_map(block).collect();
        assert_eq!(blocks.len(), relatives.len());
        try_blocks(&image, &place, &blocks, is_at_an_end, &mut tally);
    }
    must_have_met(&tally, &[0, 4, 5]);
}

/// A sound partition, now and then with a big file.
fn some_files(rng: &mut Rng) -> (Place, Vec<u8>) {
    if big::is_due(rng) {
        return big::some(rng);
    }
    let n = 4 + rng.below(120);
    let place = Place { drive: rng.below(4), n, s: 1 + rng.below(2), e: n - 1 };
    let lengths = some_lengths(&place, 5, rng);
    (place, shuffled(&place, &lengths, rng))
}

#[test]
fn random_damage() {
    let (mut rng, mut tally) = (rng(72), Tally::default());
    for _ in 0..cases(8_000) {
        let (place, image) = some_files(&mut rng);
        let mut image = low_bits::perhaps(image, &place, &mut rng);
        for _ in 0..rng.below(4) {
            damage::damage(&mut image, &place, &mut rng);
        }
        let answer = check_between_traps(&image, place.drive, place.s);
        tally.add(&place.call(Name::Check), answer);
    }
    must_have_met(&tally, &[0, 2, 4, 5]);
}

/// So many bytes, all random or mostly zeros.
fn any_bytes(length: usize, rng: &mut Rng) -> Vec<u8> {
    let mut image = vec![0; length];
    match rng.below(2) {
        0 => rng.fill(&mut image),
        _ => (0..length / 64).for_each(|_| {
            image[rng.below(length as u32) as usize] = rng.number() as u8;
        }),
    }
    image
}

/// Makes a good partition of whatever the blocks hold, with a few candidates in it.
fn make_good(image: &mut [u8], place: &Place, rng: &mut Rng) {
    set_pair(image, place.s, DATA_WORD + PARTITION_START, place.lda(place.s));
    set_pair(image, place.s, DATA_WORD + PARTITION_END, place.lda(place.e));
    for b in place.s + 1..=place.e {
        if rng.below(6) == 0 {
            set_pair(image, b, SERIAL, place.pda(b));
            set_word(image, b, RELATIVE, FIB as u16);
        }
    }
}

#[test]
fn any_short_bytes() {
    let (mut rng, mut tally) = (rng(73), Tally::default());
    for _ in 0..cases(20_000) {
        let n = 3 + rng.below(8);
        let place = Place { drive: rng.below(4), n, s: rng.below(n - 1), e: n - 1 };
        let whole = RECORD * n as usize;
        let length = if rng.below(4) == 0 { rng.below(whole as u32 + 2) as usize } else { whole };
        let mut image = any_bytes(length, &mut rng);
        if length == whole && rng.below(4) > 0 {
            make_good(&mut image, &place, &mut rng);
        }
        let (drive, s) = match rng.below(4) {
            0 => (rng.below(6), rng.below(n + 2)),
            1 => (place.drive, [0, n - 1, n, u32::MAX][rng.below(4) as usize]),
            _ => (place.drive, place.s),
        };
        tally.add(&Call::new(Name::Check, drive, s), check_between_traps(&image, drive, s));
    }
    must_have_met(&tally, &[1, 2, 4, 5]);
}

#[test]
fn the_largest_images_and_partitions_and_one_block_more() {
    for drive in Drive::ALL {
        let (number, n) = (drive.number(), drive.blocks());
        let e = (n - 1).min(32_767);
        let mut image = fresh(number, n, 1, e);
        assert_eq!(agreed(&image, number, 1).outcome, DONE);
        if e + 1 < n {
            let place = Place { drive: number, n, s: 1, e };
            set_pair(&mut image, 1, DATA_WORD + PARTITION_END, place.lda(e + 1));
            assert!(is_refusal(agreed(&image, number, 1), 2), "32,768 blocks");
        }
        image.extend([0; RECORD]);
        assert!(is_refusal(agreed(&image, number, 1), 1), "{n} blocks and one");
    }
}
