//! Worked cases: a whole file is read, and one with a fault in it is an error, so that no case is left out; and a case that
//! runs nothing has failed.

use trials::call::{Call, Name};
use trials::images::{set_pair, set_word, Place};
use trials::worked::{run, Side};
use trials::worked_file::{parse, Step};

/// A case with each kind of line, and one with a call alone.
const GOOD: &str = "# A remark.
case 1 drive 3 records 2 s 1
put 528 00ff
call check 3 1 -> 2 2 0 0 0 0 0 image 0123abcd
put 9 77
call read 3 1 2 0 pattern:512:5 -> 0 0 0 0 0 0 0 image 0123abcd buffer 89abcdef
call description 3 1 2 hex:00 -> 2 3 0 0 0 0 0 image 0123abcd buffer 89abcdef

call tree 3 1 hex: pattern:64:0 -> 0 0 0 0 1 0 0 image 0123abcd buffer 89abcdef
row 5 1 0 4142
end
case 2 drive 0 records 1 s 1
call check 0 1 -> 2 2 0 0 0 0 0 image 2e7a33f6
end
";

#[test]
fn a_good_file_is_read() {
    let cases = parse(GOOD).expect("a good file");
    let names: Vec<(&str, usize, usize)> =
        cases.iter().map(|case| (&case.name[..], case.length, case.steps.len())).collect();
    assert_eq!(names, [("1", 1_056, 6), ("2", 528, 1)]);
    let calls = cases[0].steps.iter().filter_map(|step| match step {
        Step::Call(expected) => Some((expected.line, expected.buffer_crc, expected.rows.len())),
        Step::Put(..) | Step::Lay(_) => None,
    });
    let crc = Some(0x89AB_CDEF);
    let expected = [(4, None, 0), (6, crc, 0), (7, crc, 0), (9, crc, 32)];
    assert_eq!(calls.collect::<Vec<_>>(), expected);
}

/// The line whose fault is named, and it alone, is not understood.
fn must_fail(text: &str, line: usize) {
    let problem = parse(text).expect_err(text);
    assert!(problem.starts_with(&format!("line {line} is not understood")), "{problem}");
}

#[test]
fn a_sum_that_is_missing_or_garbled_is_an_error() {
    for (line, call) in [(6, "read"), (7, "description"), (9, "tree")] {
        let whole = GOOD.lines().nth(line - 1).expect("the line");
        assert!(whole.contains(call));
        for spoilt in [
            "",
            "buffer",
            "89abcdef",
            "buffer 89abcde",
            "buffer 89abcdeg",
            "buffer 089abcdef",
            "bufer 89abcdef",
        ] {
            must_fail(&GOOD.replace(whole, &whole.replace("buffer 89abcdef", spoilt)), line);
        }
        for spoilt in ["", "image", "image 0123abc", "image x123abcd", "image +123abcd"] {
            must_fail(&GOOD.replace(whole, &whole.replace("image 0123abcd", spoilt)), line);
        }
        must_fail(&GOOD.replace(whole, &format!("{whole} more")), line);
    }
    must_fail(
        &GOOD.replace("0 0 image 0123abcd\nput", "0 0 image 0123abcd buffer 89abcdef\nput"),
        4,
    );
}

#[test]
fn a_case_ends_where_it_says_so() {
    let steps =
        ["put 0 00", "call check 3 1 -> 2 2 0 0 0 0 0 image 0123abcd", "row 5 1 0 41", "end"];
    for step in steps {
        must_fail(&format!("{step}\n{GOOD}"), 1);
        must_fail(&format!("{GOOD}{step}\n"), 15);
        must_fail(&GOOD.replace("case 2", &format!("{step}\ncase 2")), 12);
    }
    // Line 11 is the first end.
    must_fail(&GOOD.replacen("end\n", "", 1), 11);
    let open = GOOD.strip_suffix("end\n").expect("the last end");
    assert_eq!(parse(open).expect_err("a case without an end"), "case 2 has no end");
}

#[test]
fn a_call_that_is_not_known_is_an_error() {
    let unknown =
        ["chek", "lba_to_lbn", "show_pair", "name", "perq_check", "perq_lda_to_lbn", "Check"];
    for name in unknown {
        must_fail(&GOOD.replacen("call check", &format!("call {name}"), 1), 4);
    }
    must_fail(&GOOD.replacen("call check 3 1 ", "call check 3 1 0 ", 1), 4);
}

/// The conversions by their names in the files.
const CONVERSIONS: [(&str, Name); 6] = [
    ("lbn_to_pda", Name::LbnToPda),
    ("pda_to_lbn", Name::PdaToLbn),
    ("lbn_to_lda", Name::LbnToLda),
    ("lda_to_lbn", Name::LdaToLbn),
    ("lbn_to_fileid", Name::LbnToFileid),
    ("fileid_to_lbn", Name::FileidToLbn),
];

#[test]
fn a_conversion_has_a_drive_and_a_number() {
    for (word, name) in CONVERSIONS {
        let cases =
            parse(&GOOD.replacen("call check 3 1 ", &format!("call {word} 2 4294967295 "), 1));
        let cases = cases.expect("a conversion is a call");
        let Step::Call(expected) = &cases[0].steps[1] else { panic!("the call of line 4") };
        assert_eq!(expected.call, Call::conversion(name, 2, u32::MAX));
        for arguments in ["", "2", "2 1 0", "2 x", "2 4294967296", "hex:00 1", "2 hex:00"] {
            must_fail(
                &GOOD.replacen("call check 3 1 ", &format!("call {word} {arguments} "), 1),
                4,
            );
        }
        let summed =
            format!("call {word} 2 1 -> 0 0 0 0 0 0 0 image 0123abcd buffer 89abcdef\nend\n");
        must_fail(&GOOD.replace("end\ncase 2", &format!("{summed}case 2")), 11);
    }
}

/// A partition with a file of three blocks, 2 to 0 at blocks 4 to 6, and the free blocks 2 and 7.
const LAID: &str = "case 1 drive 0 records 9 s 1
partition 7
file 3 kind 9 blocks 3 at 6 step -1
chain
call check 0 1 -> 0 0 0 0 1 4 2 image 00000000
end
";

#[test]
fn a_file_is_laid_by_rule() {
    let cases = parse(LAID).expect("a good file");
    let Step::Lay(laying) = &cases[0].steps[0] else { panic!("the partition of line 2") };
    let mut image = vec![0; cases[0].length];
    laying.lay(&mut image);
    let place = Place { drive: 0, n: 9, s: 1, e: 7 };
    let mut expected = vec![0; 528 * 9];
    let (pda, lda) = (|b| place.pda(b), |b| place.lda(b));
    // Header: serial, next, previous.
    for (b, serial, next, previous) in [
        (3, pda(3), pda(6), 0),
        (6, pda(3), pda(5), pda(3)),
        (5, pda(3), pda(4), pda(6)),
        (4, pda(3), 0, pda(5)),
        (2, 0, pda(7), 0),
        (7, 0, 0, pda(2)),
    ] {
        for (at, value) in [(0, serial), (4, next), (6, previous)] {
            set_pair(&mut expected, b, at, value);
        }
    }
    for (at, value) in [(0, lda(2)), (2, lda(7)), (4, 2), (118, lda(1)), (120, lda(7))] {
        set_pair(&mut expected, 1, 8 + at, value);
    }
    for (at, value) in [(52, lda(6)), (54, lda(5)), (56, lda(4)), (251, lda(4)), (254, lda(3))] {
        set_pair(&mut expected, 3, 8 + at, value);
    }
    for (at, value) in [(2, 0xFFFF), (8 + 248, 9), (8 + 249, 4), (8 + 250, 2), (8 + 253, 0xFFFF)] {
        set_word(&mut expected, 3, at, value);
    }
    let others = [(5, 2, 1), (5, 8, 1), (4, 2, 2), (4, 8, 2), (2, 3, 2), (7, 3, 2)];
    others.into_iter().for_each(|(b, at, value)| set_word(&mut expected, b, at, value));
    assert!(image == expected);
}

#[test]
fn a_file_that_cannot_be_laid_is_an_error() {
    let file = "file 3 kind 9 blocks 3 at 6 step -1";
    for spoilt in [
        "file 3 kind 9 blocks 3 at 6 step 2",
        "file 3 kind 9 blocks 3 at 6 step 0",
        "file 3 kind 9 blocks 3 at 6 step 1",
        "file 3 kind 9 blocks 3 at 5 step -1",
        "file 3 kind 9 blocks 3 at 3 step 1",
        "file 1 kind 9 blocks 0 at 6 step -1",
        "file 8 kind 9 blocks 0 at 6 step -1",
        "file 3 kind 65536 blocks 3 at 6 step -1",
        "file 3 kind 9 blocks 65536 at 6 step -1",
        "file 3 kind 9 blocks 3 at 6 step -1 more",
        "file 3 kind 9 blocks 3 at 6",
        "file 3 kind 9 at 6 step -1 present 0-2",
        "chain more",
        "chains",
    ] {
        must_fail(&LAID.replace(file, spoilt), 3);
    }
    for spoilt in ["partition 1", "partition 9", "partition", "partition 7 8", "partition x"] {
        must_fail(&LAID.replace("partition 7", spoilt), 2);
    }
    must_fail(&LAID.replace("drive 0", "drive 4"), 2);
    // Blocks that a file has already; lines that come too late or too early.
    must_fail(&LAID.replace("chain", "file 2 kind 9 blocks 1 at 4 step 1"), 4);
    must_fail(&LAID.replace("chain", "file 5 kind 9 blocks 0 at 4 step 1"), 4);
    must_fail(&LAID.replace("chain", "chain\nchain"), 5);
    must_fail(&LAID.replace("chain", "chain\nfile 2 kind 9 blocks 0 at 4 step 1"), 5);
    must_fail(&LAID.replace("chain", "partition 7"), 4);
    must_fail(&LAID.replace("chain", "put 0 00\nchain"), 5);
    must_fail(&LAID.replace("partition", "put 0 00\npartition"), 3);
    must_fail(&LAID.replace("partition 7\n", ""), 2);
    must_fail(&LAID.replace(&format!("partition 7\n{file}\n"), ""), 2);
}

#[test]
fn a_case_has_a_drive_and_a_partition() {
    for spoilt in ["case 1", "case 1 drive 3 records 2", "case 1 records 2 drive 3 s 1"] {
        must_fail(&GOOD.replace("case 1 drive 3 records 2 s 1", spoilt), 2);
    }
}

#[test]
fn a_file_without_cases_is_an_error() {
    for text in ["", "\n\n", "# case 1 drive 3 records 2 s 1\n# end\n"] {
        assert_eq!(parse(text).expect_err("no case"), "there is no case in it");
    }
}

/// The counts and the complaints of a run over one case that starts as case 2 does, on both sides.
fn ran(steps: &str) -> (u32, u32, String) {
    let text = format!("case 2 drive 0 records 1 s 1\n{steps}end\n");
    let cases = parse(&text).expect("a case");
    let report = run(&cases, Side::Library);
    assert_eq!(report, run(&cases, Side::Reference));
    (report.passed, report.failed, report.complaints)
}

#[test]
fn a_case_passes_only_with_a_call_and_as_worked_out() {
    // One record of zeros has no partition at block 1: refused by 2. 2e7a33f6 is its CRC-32 by zlib.
    let call = "call check 0 1 -> 2 2 0 0 0 0 0 image 2e7a33f6\n";
    assert_eq!(ran(call), (1, 0, String::new()));
    for nothing in ["", "put 0 00\n", "# call check 0 1\n"] {
        assert_eq!(ran(nothing), (0, 1, "case 2: it has no call\n".to_string()));
    }
    let (passed, failed, complaints) = ran(&call.replace("2 2 0", "2 1 0"));
    assert_eq!((passed, failed), (0, 1));
    assert!(complaints.starts_with("case 2: line 2: Check answers "), "{complaints}");
    let another = (0, 1, "case 2: line 2: Check leaves another image\n".to_string());
    assert_eq!(ran(&call.replace("2e7a33f6", "2e7a33f7")), another);
}

#[test]
fn a_conversion_is_made_beside_the_image_of_its_case() {
    // M5: on drive 2, LBN 69,551 has the LDA 127400 140417 O; the record of zeros stays.
    let call = "call lda_to_lbn 2 3239030528 -> 0 0 0 0 69551 0 0 image 2e7a33f6\n";
    assert_eq!(ran(call), (1, 0, String::new()));
    assert_eq!(ran(&call.replace("image 2e7a33f6", "image 2e7a33f7")).1, 1);
    assert_eq!(ran(&call.replace("69551", "69550")).1, 1);
    assert_eq!(ran("call lbn_to_lda 2 69551 -> 0 0 0 0 3239030528 0 0 image 2e7a33f6\n").0, 1);
    assert_eq!(ran("call lda_to_lbn 2 0 -> 2 10 0 0 0 0 0 image 2e7a33f6\n").0, 1);
    assert_eq!(ran("call fileid_to_lbn 4 0 -> 2 1 0 0 0 0 0 image 2e7a33f6\n").0, 1);
}
