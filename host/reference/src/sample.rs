//! Images for tests and benchmarks, and the small random generator they are made with. Descriptions are
//! made in name_sample.rs.
//! Images are built directly, so that a large partition takes no time; tests compare them with the calls.

use crate::address::{Drive, NIL};
use crate::file::{
    File, BLOCKS_IN_USE, KIND, LAST_ADDRESS, LAST_BLOCK, LAST_NEGATIVE, LAST_NEGATIVE_ADDRESS,
};
use crate::image::{DATA, FILLER, FREE_HEAD, FREE_TAIL, HEADER, NEXT, NUMBER_FREE, PARTITION_END};
use crate::image::{PARTITION_START, PREVIOUS, RECORD, RELATIVE, SERIAL};
use crate::index::{place, Level, FIB};

pub use crate::name_sample::{named, random_name};

/// A xorshift generator: the same seed gives the same numbers.
#[derive(Clone, Debug)]
pub struct Rng(u64);

impl Rng {
    pub fn new(seed: u64) -> Rng {
        let mixed = seed.wrapping_add(1).wrapping_mul(0x9E37_79B9_7F4A_7C15);
        Rng(mixed.max(1))
    }

    /// The next number, of 64 bits.
    pub fn number(&mut self) -> u64 {
        self.0 ^= self.0 << 13;
        self.0 ^= self.0 >> 7;
        self.0 ^= self.0 << 17;
        self.0.wrapping_mul(0x2545_F491_4F6C_DD1D)
    }

    /// A number below `bound`, which is not 0.
    pub fn below(&mut self, bound: u32) -> u32 {
        (((self.number() >> 32) * u64::from(bound)) >> 32) as u32
    }

    pub fn fill(&mut self, bytes: &mut [u8]) {
        for part in bytes.chunks_mut(8) {
            part.copy_from_slice(&self.number().to_le_bytes()[..part.len()]);
        }
    }
}

/// An image all zero but Start and End in the PIB of s; repair makes it fresh.
pub fn blank(drive: u32, n: u32, s: u32, e: u32) -> Vec<u8> {
    Builder::new(drive, n, s, e).image
}

/// A partition without files, its free chain ascending.
pub fn fresh(drive: u32, n: u32, s: u32, e: u32) -> Vec<u8> {
    scattered(drive, n, s, e, &[], 0)
}

/// A sound partition with one file for each of `lengths` (L+1, at most 32,508). File i has its FIB at
/// s+1+i and kind i; then the files grow block by block in the order of `growth`, with data of
/// `content`. It is what create and write make of a fresh partition. At least one block must remain.
pub fn scattered(drive: u32, n: u32, s: u32, e: u32, lengths: &[u32], seed: u64) -> Vec<u8> {
    let mut builder = Builder::new(drive, n, s, e);
    let mut files: Vec<Growing> = (0..lengths.len()).map(|i| builder.create(i as u16)).collect();
    for i in growth(lengths, seed) {
        let data = content(seed, i, files[i].file.length());
        builder.append(&mut files[i], &data);
    }
    for file in &files {
        builder.close(file);
    }
    builder.free_rest();
    builder.image
}

/// Which file grows next, by its place in `lengths`; a file of length k is there k times.
pub fn growth(lengths: &[u32], seed: u64) -> Vec<usize> {
    let mut rng = Rng::new(seed);
    let mut growing: Vec<(usize, u32)> = lengths.iter().copied().enumerate().collect();
    growing.retain(|&(_, left)| left > 0);
    let mut order = Vec::new();
    while !growing.is_empty() {
        let at = rng.below(growing.len() as u32) as usize;
        order.push(growing[at].0);
        growing[at].1 -= 1;
        if growing[at].1 == 0 {
            growing.swap_remove(at);
        }
    }
    order
}

/// The data of relative block r of file i in a scattered partition.
pub fn content(seed: u64, i: usize, r: u32) -> [u8; DATA] {
    let mut data = [0; DATA];
    Rng::new(seed ^ (i as u64) << 32 ^ u64::from(r) << 16).fill(&mut data);
    data
}

/// A file while it is built.
struct Growing {
    file: File,
    /// The blocks of each level so far.
    blocks: [Vec<u32>; 3],
}

impl Growing {
    fn block(&self, relative: i32) -> u32 {
        if relative == FIB {
            return self.file.f;
        }
        let (level, at) = Level::of(relative);
        self.blocks[level as usize][at as usize]
    }
}

/// An image while it is built; blocks are taken in ascending order.
struct Builder {
    image: Vec<u8>,
    drive: Drive,
    s: u32,
    e: u32,
    /// The first block not yet taken.
    free: u32,
}

impl Builder {
    fn new(drive: u32, n: u32, s: u32, e: u32) -> Builder {
        let drive = Drive::numbered(drive).expect("the drive is 0 to 3");
        assert!(
            1 <= s && s < e && e < n && n <= drive.blocks() && e - s < 32_767,
            "a good partition"
        );
        let image = vec![0; RECORD * n as usize];
        let mut builder = Builder { image, drive, s, e, free: s + 1 };
        builder.set_data_pair(s, PARTITION_START, drive.lda(s));
        builder.set_data_pair(s, PARTITION_END, drive.lda(e));
        builder
    }

    fn set(&mut self, b: u32, word: usize, bytes: &[u8]) {
        let at = RECORD * b as usize + 2 * word;
        self.image[at..at + bytes.len()].copy_from_slice(bytes);
    }

    fn set_data_word(&mut self, b: u32, word: usize, value: i32) {
        self.set(b, HEADER / 2 + word, &(value as u16).to_le_bytes());
    }

    fn set_data_pair(&mut self, b: u32, word: usize, value: u32) {
        self.set(b, HEADER / 2 + word, &value.to_le_bytes());
    }

    fn set_lda(&mut self, b: u32, word: usize, lbn: u32) {
        self.set_data_pair(b, word, self.drive.lda(lbn));
    }

    /// A link of block b: nil for none.
    fn set_link(&mut self, b: u32, word: usize, to: Option<u32>) {
        let pda = to.map_or(NIL, |to| self.drive.pda(to));
        self.set(b, word, &pda.to_le_bytes());
    }

    /// Takes the first block not yet taken for file f. As the calls would have it, its filler is its
    /// own LBN if it was first of the free chain, and s+1 if it was second or third (a block of the
    /// index).
    fn take(&mut self, f: u32, relative: i32, filler: u32) -> u32 {
        let b = self.free;
        assert!(b < self.e, "the last free block is not handed out");
        self.free += 1;
        self.set_link(b, SERIAL, Some(f));
        self.set(b, RELATIVE, &(relative as u16).to_le_bytes());
        self.set(b, FILLER, &(filler as u16).to_le_bytes());
        b
    }

    fn create(&mut self, kind: u16) -> Growing {
        let f = self.free;
        self.take(f, FIB, f);
        self.set_data_word(f, KIND, i32::from(kind));
        Growing { file: File { f, last: -1 }, blocks: Default::default() }
    }

    /// Takes a data block, and the blocks of the index that it is the first to need.
    fn append(&mut self, growing: &mut Growing, data: &[u8]) {
        self.set(self.free, HEADER / 2, data);
        growing.file.last += 1;
        for level in Level::ALL {
            let count = growing.blocks[level as usize].len() as u32;
            if growing.file.count(level) > count {
                let filler = if level == Level::Data { self.free } else { self.s + 1 };
                let b = self.take(growing.file.f, level.relative(count), filler);
                growing.blocks[level as usize].push(b);
            }
        }
    }

    /// Links the blocks of a file, and writes its index and the words of the FIB that follow from it.
    fn close(&mut self, growing: &Growing) {
        let file = growing.file;
        for relative in file.linked() {
            let b = growing.block(relative);
            let to = |relative: Option<i32>| relative.map(|relative| growing.block(relative));
            self.set_link(b, NEXT, to(file.next(relative)));
            self.set_link(b, PREVIOUS, to(file.previous(relative)));
            if relative != FIB {
                let place = place(relative);
                self.set_lda(growing.block(place.holder), place.word, b);
            }
        }
        self.set_data_word(file.f, BLOCKS_IN_USE, file.blocks_in_use() as i32);
        self.set_data_word(file.f, LAST_BLOCK, file.last);
        self.set_lda(file.f, LAST_ADDRESS, growing.block(file.last));
        self.set_data_word(file.f, LAST_NEGATIVE, file.last_negative());
        self.set_lda(file.f, LAST_NEGATIVE_ADDRESS, growing.block(file.last_negative()));
    }

    /// Chains the blocks that were not taken and writes PIB words 0-5.
    fn free_rest(&mut self) {
        let (first, last) = (self.free, self.e);
        for b in first..=last {
            let filler = if b == first { b } else { self.s + 1 };
            self.set(b, FILLER, &(filler as u16).to_le_bytes());
            self.set_link(b, NEXT, (b < last).then_some(b + 1));
            self.set_link(b, PREVIOUS, (b > first).then(|| b - 1));
        }
        self.set_lda(self.s, FREE_HEAD, first);
        self.set_lda(self.s, FREE_TAIL, last);
        self.set_data_pair(self.s, NUMBER_FREE, last - first + 1);
    }
}
