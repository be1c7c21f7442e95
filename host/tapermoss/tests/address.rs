//! The tool's conversions as a person runs them: what is printed, and the exit status.

mod common;

use common::{fails, misused, object, printed};
use serde_json::{json, Value};

const BLOCK_210: &str = "\
drive   1 (Shugart 24 MB)
LBN     210
PDA     000400 000000 O
LDA     151000 140000 O
FileID  210
";

#[test]
fn every_name_of_a_block_gives_the_others() {
    let ways: [&[&str]; 4] = [
        &["lbn", "210"],
        &["pda", "000400", "000000"],
        &["lda", "151000", "140000"],
        &["fileid", "210"],
    ];
    for way in ways {
        let arguments = [&["address", "--drive", "1"], way].concat();
        assert_eq!(printed(&arguments), BLOCK_210);
    }
    assert_eq!(printed(&["address", "--drive", "shugart24", "lbn", "210"]), BLOCK_210);
}

#[test]
fn an_lda_with_reserved_bits_names_the_block_and_they_are_mentioned() {
    for low in ["151001", "151200", "151377"] {
        let way = ["address", "--drive", "1", "lda", low, "140000"];
        let remark = format!(
            "the LDA that was given, {low} 140000 O, has reserved bits set (0-7 of its low word), which are ignored"
        );
        assert_eq!(printed(&way), format!("{BLOCK_210}{remark}\n"));
        let found = object(&way);
        assert_eq!((&found["outcome"], &found["lbn"]), (&json!("done"), &json!(210)));
        assert_eq!(found["lda"], json!(0o151000 + 65_536 * 0o140000_u32));
        assert_eq!(found["remark"], json!(remark));
    }
    for way in [["lda", "151000", "140000"], ["pda", "000400", "000000"]] {
        assert_eq!(
            object(&[&["address", "--drive", "1"], &way[..]].concat())["remark"],
            Value::Null
        );
    }
}

#[test]
fn a_block_without_a_fileid_still_has_its_addresses() {
    let text = printed(&["address", "--drive", "2", "lbn", "57344"]);
    assert!(text.ends_with("FileID  refused (10)\n"), "{text}");
}

#[test]
fn a_refusal_is_one_sentence_and_status_1() {
    let sentence = "refused (10): this number is no block, address or FileID of the drive";
    fails(&["address", "--drive", "3", "lbn", "432"], sentence);
    fails(&["address", "--drive", "0", "pda", "0", "0"], sentence);
    fails(&["address", "--drive", "0", "lda", "0", "160000"], sentence);
    fails(&["address", "--drive", "0", "lda", "377", "0"], sentence);
    fails(&["address", "--drive", "3", "fileid", "210"], sentence);
}

#[test]
fn a_wrong_use_has_status_2() {
    let uses: [&[&str]; 7] = [
        &["address", "lbn", "1"],
        &["address", "--drive", "4", "lbn", "1"],
        &["address", "--drive", "0", "pda", "1"],
        &["address", "--drive", "0", "lbn", "1", "2"],
        &["address", "--drive", "0", "lda", "9", "0"],
        &["address", "--drive", "0", "lbn", "x"],
        &["nothing"],
    ];
    for arguments in uses {
        misused(arguments);
    }
}

#[test]
fn the_tour_shows_all_eight_examples_as_worked_out() {
    let text = printed(&["tour"]);
    assert_eq!(text.lines().filter(|line| line.ends_with("   as worked out")).count(), 8, "{text}");
}
