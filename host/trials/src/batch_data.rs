//! The images in crates/batch/data, made by the reference alone: sound ones, ones that repair mends, one for a person to look
//! at, and ones that no call can help. The binary `batch_data` writes them.

use crate::images::{set_pair, Place, DATA_WORD};
use reference::file::direct_word;
use reference::image::{NEXT, PARTITION_END, PREVIOUS, RECORD};
use reference::inspect::{file_blocks, free_chain};
use reference::sample::{blank, fresh, scattered};
use reference::{create, destroy, repair, write};

/// No limit of stores.
const ALL: u32 = u32::MAX;

/// The longest image that the program takes.
const LONGEST: usize = 24 * RECORD;

const SHUGART: Place = Place { drive: 0, n: 16, s: 1, e: 15 };
const FLOPPY: Place = Place { drive: 3, n: 20, s: 6, e: 19 };

/// A file of crates/batch/data.
pub struct Sample {
    pub name: &'static str,
    pub drive: u32,
    pub bytes: Vec<u8>,
}

/// All of them, in the order of their names.
pub fn samples() -> Vec<Sample> {
    let sample = |name, drive, bytes| Sample { name, drive, bytes };
    vec![
        sample("append-2.img", 0, appended(2)),
        sample("append-3.img", 0, appended(3)),
        sample("blank.img", 3, blank(3, 12, 2, 11)),
        sample("chain.img", 3, ring()),
        sample("destroy-1.img", 0, destroyed(1)),
        sample("empty.img", 0, Vec::new()),
        sample("floppy.img", 3, floppy()),
        sample("full.img", 3, full()),
        sample("link.img", 3, unlinked()),
        sample("long.img", 0, vec![0; LONGEST + 1]),
        sample("odd.img", 3, floppy()[..20 * RECORD - 28].to_vec()),
        sample(
            "sound.img",
            0,
            scattered(SHUGART.drive, SHUGART.n, SHUGART.s, SHUGART.e, &[3, 0], 1),
        ),
        sample("torn.img", 0, torn()),
        sample("two.img", 3, two_partitions()),
        sample("zeros.img", 0, vec![0; 4 * RECORD]),
    ]
}

/// Example M12 of document 01: file 2 with one block, and its second block appended under a limit.
fn appended(limit: u32) -> Vec<u8> {
    let mut image = blank(0, 8, 1, 7);
    repair(&mut image, 0, 1, ALL);
    create(&mut image, 0, 1, 5, ALL);
    write(&mut image, 0, 1, 2, 0, &[7; 512], ALL);
    write(&mut image, 0, 1, 2, 1, &[7; 512], limit);
    image
}

/// M12's destroy under a limit.
fn destroyed(limit: u32) -> Vec<u8> {
    let mut image = appended(ALL);
    destroy(&mut image, 0, 1, 2, limit);
    image
}

/// Files 7, 8 and 9 of two, one and four blocks, and three free blocks.
fn floppy() -> Vec<u8> {
    scattered(FLOPPY.drive, FLOPPY.n, FLOPPY.s, FLOPPY.e, &[2, 1, 4], 2)
}

/// The same with a free chain that leads back to its first block.
fn ring() -> Vec<u8> {
    let mut image = floppy();
    let chain = free_chain(&image, FLOPPY.drive, FLOPPY.s).expect("a sound partition");
    set_pair(&mut image, chain[chain.len() - 1], NEXT, FLOPPY.pda(chain[0]));
    image
}

/// The same with file 9's last block linked to none before it.
fn unlinked() -> Vec<u8> {
    let mut image = floppy();
    let blocks = file_blocks(&image, FLOPPY.drive, FLOPPY.s, 9).expect("a sound partition");
    set_pair(&mut image, blocks[blocks.len() - 1], PREVIOUS, 0);
    image
}

/// File 7 of four blocks in a partition of six, 6 to 11: the block after them, the only free one, is cut off.
fn full() -> Vec<u8> {
    let mut image = scattered(3, 13, 6, 12, &[4], 3);
    set_pair(&mut image, 6, DATA_WORD + PARTITION_END, FLOPPY.lda(11));
    image
}

/// Files 2 and 3 of two blocks each; file 3's index names block 0 of file 2 for its own last one.
fn torn() -> Vec<u8> {
    let mut image = scattered(SHUGART.drive, SHUGART.n, SHUGART.s, SHUGART.e, &[2, 2], 4);
    let other = file_blocks(&image, SHUGART.drive, SHUGART.s, 2).expect("a sound partition")[1];
    set_pair(&mut image, 3, DATA_WORD + direct_word(1), SHUGART.lda(other));
    image
}

/// Partitions from 1 to 8 and from 10 to 19, and no table that lists them.
fn two_partitions() -> Vec<u8> {
    let (mut image, second) = (fresh(3, 20, 1, 8), fresh(3, 20, 10, 19));
    image[10 * RECORD..].copy_from_slice(&second[10 * RECORD..]);
    image
}
