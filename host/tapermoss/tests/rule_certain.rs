//! `tapermoss rule` calls no more settled, confirmed or certain than is.

mod common;

use common::rules::{
    hash, learnt, line, lines, numbers, object, planted, random_name, random_rule, remainders,
    standing, weights,
};
use common::{said, with, Folder};
use reference::sample::Rng;
use reference::tree_sample::{Line, Stand};
use serde_json::{json, Value};

#[test]
fn names_that_are_short_settle_no_more_than_their_weights() {
    let mut rng = Rng::new(3);
    let rule = random_rule(&mut rng);
    let object = learnt(&planted(&rule, vec![lines(&mut rng, 80, 1..=6)]).1);
    assert_eq!(weights(&object)[..7], remainders(&rule)[..7]);
    assert_eq!(weights(&object)[7..], [0; 19]);
    assert_eq!((&object["settled"], &object["untold"]), (&numbers(0..7), &numbers(7..26)));
    assert_eq!((&object["independent"], &object["placed_to"]), (&json!(7), &json!(6)));
    let found = weights(&object);
    for length in 1..=6 {
        let name = random_name(&mut rng, length);
        assert_eq!(hash(&found, &name), hash(&rule, &name));
    }
}

const NOT_CONFIRMED: &str =
    "not confirmed: with so few entries any names in any blocks would fit as well";

/// What the text warns of, which the object has too, and the object; the status is 4 only with a sentence.
fn warned(folder: &Folder) -> (Vec<String>, Value) {
    let (status, out, err) = said(folder, "rule FOLDER/disk");
    let warning = |line: &str| line.strip_prefix("# warning: ").map(str::to_string);
    let warnings: Vec<String> = out.lines().filter_map(warning).collect();
    let first = out.lines().take(warnings.len()).filter_map(warning).count();
    assert_eq!(first, warnings.len(), "warnings come first: {out}");
    let (object, other) = object(&[&folder.text("disk")]);
    assert_eq!((other, &object["warnings"]), (status, &json!(warnings)));
    assert_eq!(object["sentence"].is_null(), status == 0, "{object}");
    let sentence = object["sentence"].as_str();
    assert!(sentence.is_none_or(|it| status == 4 && err.starts_with(&format!("tapermoss: {it}\n"))));
    assert!(sentence.is_none_or(|it| it == warnings[0]), "{object}");
    (warnings, object)
}

/// "A" is 3 modulo 31, "B" 4, "C" 5, and so on.
#[test]
fn too_few_entries_are_told_to_be_too_few() {
    let folder = Folder::new();
    // w0 + 3 w1 = 5 leaves both open.
    folder.put("one", &planted(&[], vec![vec![standing(b"a", 36)]]).1);
    let (status, out, err) = said(&folder, "rule FOLDER/one");
    assert_eq!((status, err.as_str()), (0, ""));
    let zeros = ",0".repeat(25);
    assert_eq!(
        out,
        format!(
            "# warning: {NOT_CONFIRMED}\n\
             5{zeros}\n\
             # 1 entry of 1 directory in 1 image: 1 agree, 0 do not\n\
             # 1 independent equation for 26 weights\n\
             # settled: none; not settled: w0 to w25\n\
             # no entry tells of w2 to w25: printed as 0\n\
             # too few entries tell of w0 to w1: printed is one choice of those that fit\n\
             # the rules that fit the entries that agree place these alike, other names perhaps not\n"
        )
    );
    // w0 + 4 w1 = 7 too: w1 = 2, w0 = -1. Then "C" hashes to -1 + 10 = 9; "AB" in block 0 makes 4 w2 = 2 - 6 = -4.
    folder.put("two", &planted(&[], vec![vec![standing(b"A", 5), standing(b"B", 7)]]).1);
    let lines = vec![standing(b"A", 5), standing(b"b", 7), standing(b"c", 40), standing(b"aB", 0)];
    folder.put("three", &planted(&[], vec![lines]).1);
    let (two, _) = object(&[&folder.text("two")]);
    assert_eq!((&two["settled"], &two["confirming"]), (&json!([0, 1]), &json!(0)));
    assert_eq!(weights(&two)[..3], [30, 2, 0]);
    let (three, _) = object(&[&folder.text("three")]);
    assert_eq!((&three["settled"], &three["confirming"]), (&json!([0, 1, 2]), &json!(1)));
    assert_eq!(weights(&three)[..4], [30, 2, 30, 0]);
}

#[test]
fn a_rule_is_certain_only_if_four_entries_confirm_it() {
    // The first two settle w0 and w1. The hash of "A" is 1 + 2 * 3, and no letter up to "G" has 0.
    let mut rule = [0; 26];
    rule[..2].copy_from_slice(&[1, 2]);
    for further in 0..=5 {
        let lines = (b'A'..b'C' + further).map(|letter| line(&[letter])).collect();
        let folder = with(&planted(&rule, vec![lines]).1);
        let (warnings, object) = warned(&folder);
        assert_eq!((&object["outcome"], &object["confirming"]), (&json!("done"), &json!(further)));
        let is_confirmed = further >= 4;
        assert_eq!(object["certain"], is_confirmed, "{object}");
        assert_eq!(object["confirmed"], is_confirmed, "{object}");
        assert_eq!(object["certain_to"], u8::from(is_confirmed));
        assert_eq!(object["settled"], json!([0, 1]));
        let expected = match further {
            0 => vec![NOT_CONFIRMED.to_string()],
            1 => vec!["not confirmed: only 1 further entry agrees that could have failed, and 4 are wanted"
                .to_string()],
            2 | 3 => vec![format!(
                "not confirmed: only {further} further entries agree that could have failed, and 4 are wanted"
            )],
            _ => Vec::new(),
        };
        assert_eq!(warnings, expected);
        let (_, out, _) = said(&folder, "rule FOLDER/disk");
        let told = format!("# 2 independent equations for 26 weights, confirmed by {further} different further ones\n");
        assert_eq!([out.contains("# certain"), out.contains(&told)], [is_confirmed; 2], "{out}");
    }
}

/// As many entries as names that are all different, and in blocks by chance: some rule fits, and says nothing.
#[test]
fn chance_is_not_taken_for_certain() {
    let mut rng = Rng::new(12);
    let mut lines = vec![standing(b"A", 1), standing(b"B", 2)];
    lines.extend((2..=25).map(|n| standing(&random_name(&mut rng, n), rng.below(31))));
    let (warnings, object) = warned(&with(&planted(&[], vec![lines]).1));
    assert_eq!((&object["independent"], &object["agreeing"]), (&json!(26), &json!(26)));
    assert_eq!(warnings, [NOT_CONFIRMED]);
    assert_eq!((&object["certain"], &object["certain_to"]), (&json!(false), &json!(0)));
}

/// Where most of the entries can be left out, chance finds a rule that some more of them agree with.
#[test]
fn what_is_chosen_among_chances_is_not_confirmed() {
    let mut rng = Rng::new(15);
    for count in [60, 100, 250] {
        let chance = lines(&mut rng, count, 1..=25).into_iter();
        let lines = chance.map(|it| Line { stand: Stand::Block(rng.below(31)), ..it }).collect();
        let (warnings, object) = warned(&with(&planted(&[], vec![lines]).1));
        let number = |name: &str| object[name].as_u64().expect("a number");
        assert!(number("confirming") >= 4, "{object}");
        assert_eq!((&object["confirmed"], &object["certain"]), (&json!(false), &json!(false)));
        let told = format!(
            "not confirmed: only {} further entries agree that could have failed, and {} are wanted where {} do not",
            number("confirming"), number("wanted"), count as u64 - number("agreeing")
        );
        assert_eq!(warnings.last(), Some(&told));
    }
}

/// Lines with names of these lengths, all in block 0 as far as it has places, then in block 31.
fn one_block(rng: &mut Rng, count: usize, lengths: std::ops::RangeInclusive<u32>) -> Vec<Line> {
    let lines = lines(rng, count, lengths);
    lines.into_iter().map(|it| Line { stand: Stand::Block(0), ..it }).collect()
}

const SAY_NOTHING: &str = "stand in blocks 0, 31, 62 and so on, where weights of 0 put every name: these directories \
    have one block, or all is in block 0; they say nothing of the rule, and it must not be used for others";

/// Nothing is settled or certain in what was found, and a person is asked.
fn says_nothing(directories: Vec<Vec<Line>>, which: &str) {
    let folder = with(&planted(&[], directories).1);
    let (warnings, object) = warned(&folder);
    assert_eq!(warnings[0], format!("{which} {SAY_NOTHING}"));
    assert_eq!((&object["outcome"], &object["only_block_0"]), (&json!("set aside"), &json!(true)));
    assert_eq!((&object["certain"], &object["settled"]), (&json!(false), &json!([])));
    assert_eq!([&object["placed_to"], &object["certain_to"]], [0, 0]);
    assert_eq!(object["confirmed"], false);
    let (status, out, err) = said(&folder, "rule FOLDER/disk");
    assert_eq!((status, err), (4, format!("tapermoss: {}\n", warnings[0])));
    let words = ["settled", "certain", "confirmed by"];
    assert!(words.iter().all(|word| !out.contains(word)), "{out}");
}

#[test]
fn directories_of_one_block_say_nothing_of_the_rule() {
    const ALL: &str = "all entries that agree";
    let mut rng = Rng::new(4);
    says_nothing(vec![one_block(&mut rng, 5, 8..=8)], ALL);
    let many = |rng: &mut Rng| (0..4).map(|_| one_block(rng, 16, 1..=25)).collect::<Vec<_>>();
    says_nothing(many(&mut rng), ALL);
    // One that stands elsewhere and does not agree takes nothing back.
    let mut two_blocks = many(&mut rng);
    two_blocks[0].push(standing(b"other", 1));
    says_nothing(two_blocks, ALL);
    let hashed = with(&planted(&[1; 26], vec![lines(&mut rng, 40, 1..=4)]).1);
    let (warnings, object) = warned(&hashed);
    assert_eq!((warnings.len(), &object["only_block_0"]), (0, &json!(false)), "{object}");
}

/// The only name of four characters agrees wherever it stands.
#[test]
fn one_entry_of_twenty_elsewhere_says_no_more() {
    let mut rng = Rng::new(13);
    let mut directory = one_block(&mut rng, 19, 1..=3);
    directory.push(standing(b"AAAA", 5));
    says_nothing(vec![directory.clone()], "all but 1 of the 20 entries that agree");
    directory.swap_remove(0);
    let (_, object) = warned(&with(&planted(&[], vec![directory]).1));
    assert_eq!((&object["outcome"], &object["only_block_0"]), (&json!("done"), &json!(false)));
    assert_eq!((&object["agreeing"], &object["settled"]), (&json!(19), &numbers(0..5)));
}

#[test]
fn most_entries_may_disagree() {
    let lines = [1, 1, 2, 3, 4].map(|r| standing(b"A", r)).to_vec();
    let (warnings, object) = warned(&with(&planted(&[], vec![lines]).1));
    assert_eq!(
        warnings,
        ["most entries do not agree: they may follow no rule of this form", NOT_CONFIRMED]
    );
    assert_eq!((&object["most_disagree"], &object["agreeing"]), (&json!(true), &json!(2)));
    let half = [1, 1, 2, 3].map(|r| standing(b"A", r)).to_vec();
    let (warnings, object) = warned(&with(&planted(&[], vec![half]).1));
    assert_eq!((warnings.len(), &object["most_disagree"]), (1, &json!(false)));
}

#[test]
fn rules_that_are_equally_good_are_for_a_person() {
    // w0 + 3 w1 is 5 or 6.
    let folder = with(&planted(&[], vec![vec![standing(b"A", 5), standing(b"A", 6)]]).1);
    let (warnings, object) = warned(&folder);
    assert_eq!((&object["outcome"], &object["rivals"]), (&json!("set aside"), &json!(1)));
    let (one, other) = (format!("5{}", ",0".repeat(25)), format!("6{}", ",0".repeat(25)));
    let rival = |rule: &str| {
        let told = format!("as many entries agree with another rule as with this one: {rule}");
        vec![told, NOT_CONFIRMED.to_string()]
    };
    let is_one = object["weights"][0] == 5;
    assert_eq!(warnings, rival(if is_one { &other } else { &one }));
    let (status, out, _) = said(&folder, "rule FOLDER/disk");
    assert_eq!(status, 4);
    assert!(out.contains(&format!("\n{}\n", if is_one { one } else { other })), "{out}");
    assert!(
        out.contains("# the best rule that was found; a better one is not excluded\n"),
        "{out}"
    );
}

#[test]
fn settled_is_only_what_rivals_do_not_dispute() {
    // w0 = 1 and w1 = 2 are beyond doubt; then "AB" makes 8 + 4 w2, which is 12 or 16.
    let mut rule = [0; 26];
    rule[..2].copy_from_slice(&[1, 2]);
    let mut lines: Vec<Line> = (b'A'..b'H').map(|letter| line(&[letter])).collect();
    lines.extend([standing(b"AB", 12), standing(b"AB", 16)]);
    let folder = with(&planted(&rule, vec![lines]).1);
    let (_, object) = warned(&folder);
    assert_eq!((&object["settled"], &object["placed_to"]), (&json!([0, 1]), &json!(1)));
    let second = [&object["weights"][2], &object["rival"][2]].map(|it| it.as_u64());
    assert!(second == [Some(1), Some(2)] || second == [Some(2), Some(1)], "{object}");
    let (_, out, _) = said(&folder, "rule FOLDER/disk");
    let told = "# settled: w0 to w1; not settled: w2 to w25\n\
                # rules that as many entries agree with differ in w2\n";
    assert!(out.contains(told), "{out}");
    // Two of the four letters agree with any of six rules: w0 is 0, 25, 28, 15, 25 or 9, and w1 is 1, 3, 2, 5, 18 or 0.
    let lines = [(&b"A"[..], 3), (b"B", 4), (b"AB", 5), (b"C", 9), (b"D", 9)];
    let lines = lines.map(|(name, r)| standing(name, r)).to_vec();
    let (warnings, object) = warned(&with(&planted(&[], vec![lines]).1));
    assert_eq!((&object["settled"], &object["rivals"]), (&json!([]), &json!(5)));
    assert!(warnings[0].ends_with(", and with 4 more that were found"), "{warnings:?}");
}
