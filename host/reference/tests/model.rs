//! Random calls, whole and cut, against a plain model: files as lists of blocks' data, and the free
//! chain as a list. A cut call is repaired and must leave the old or the new files by its deciding store.
//! LDAs are looked at too: what stays and what is written anew. About half the names are bad.

mod common;
use common::low_bits::*;
use common::names::first_fault;
use common::*;
use reference::sample::{random_name, Rng};
use reference::*;
use std::collections::BTreeMap;

#[derive(Clone, Default, PartialEq, Debug)]
struct ModelFile {
    kind: u16,
    description: Vec<u8>,
    data: Vec<Vec<u8>>,
    /// In link order.
    blocks: Vec<u32>,
}

#[derive(Clone, PartialEq, Debug)]
struct Model {
    files: BTreeMap<u32, ModelFile>,
    free: Vec<u32>,
}

/// One call with its arguments.
enum Op {
    Create(u16),
    Write(u32, u32, Vec<u8>),
    Describe(u32, Vec<u8>),
    Destroy(u32),
}

const N: u32 = 400;
const S: u32 = 7;
const E: u32 = 390;

/// The model of the image, read through the calls that change nothing.
fn observe(image: &[u8], drive: u32) -> Model {
    let free = inspect::free_chain(image, drive, S).expect("sound");
    let mut files = BTreeMap::new();
    let mut after = 0;
    loop {
        let answer = next_file(image, drive, S, after);
        if answer.outcome == ABSENT {
            return Model { files, free };
        }
        after = answer.a;
        files.insert(after, observe_file(image, drive, after));
    }
}

fn observe_file(image: &[u8], drive: u32, f: u32) -> ModelFile {
    let mut file = ModelFile {
        kind: word(image, f, 8 + 248),
        description: vec![0; 104],
        ..Default::default()
    };
    description(image, drive, S, f, &mut file.description);
    file.blocks = inspect::file_blocks(image, drive, S, f).unwrap();
    for r in 0.. {
        let mut block = vec![0; 512];
        if read(image, drive, S, f, r, &mut block).outcome == ABSENT {
            break;
        }
        file.data.push(block);
    }
    file
}

impl Model {
    /// What the whole call does, or its number.
    fn after(&self, op: &Op) -> Result<Model, u32> {
        let mut new = self.clone();
        match op {
            Op::Create(kind) => {
                let f = new.take(1)?[0];
                let description = vec![0; 104];
                let file =
                    ModelFile { kind: *kind, description, data: Vec::new(), blocks: vec![f] };
                new.files.insert(f, file);
            }
            Op::Write(f, r, data) => new.write(*f, *r as usize, data)?,
            Op::Describe(_, description) if first_fault(description) != (0, 0) => return Err(12),
            Op::Describe(f, description) => {
                new.files.get_mut(f).ok_or(6_u32)?.description = description.clone();
            }
            Op::Destroy(f) => {
                let file = new.files.remove(f).ok_or(6_u32)?;
                new.free.extend(file.blocks);
            }
        }
        Ok(new)
    }

    fn write(&mut self, f: u32, r: usize, data: &[u8]) -> Result<(), u32> {
        let length = self.files.get(&f).ok_or(6_u32)?.data.len();
        if r > length {
            return Err(7);
        }
        if r < length {
            self.files.get_mut(&f).unwrap().data[r] = data.to_vec();
            return Ok(());
        }
        let new_pointer = r >= 64 && (r - 64) % 128 == 0;
        let taken = self.take(if new_pointer { 2 } else { 1 })?;
        let file = self.files.get_mut(&f).unwrap();
        file.data.push(data.to_vec());
        file.blocks.push(taken[0]);
        if new_pointer {
            file.blocks.insert(0, taken[1]);
        }
        Ok(())
    }

    fn take(&mut self, count: usize) -> Result<Vec<u32>, u32> {
        if self.free.len() < count + 1 {
            return Err(8);
        }
        Ok(self.free.drain(..count).collect())
    }

    /// The same files, the free blocks ascending: what repair leaves.
    fn repaired(mut self) -> Model {
        let owned: Vec<u32> = self.files.values().flat_map(|file| file.blocks.clone()).collect();
        self.free = (S + 1..=E).filter(|b| !owned.contains(b)).collect();
        self
    }
}

fn random_op(rng: &mut Rng, model: &Model) -> Op {
    let known: Vec<u32> = model.files.keys().copied().collect();
    let f = match known.len() as u32 {
        count if count > 0 && rng.below(20) > 0 => known[rng.below(count) as usize],
        _ => rng.below(N),
    };
    let length = model.files.get(&f).map_or(0, |file| file.data.len() as u32);
    let mut bytes = vec![0; 512];
    rng.fill(&mut bytes);
    match rng.below(20) {
        0..=2 => Op::Create(rng.number() as u16),
        3..=5 => Op::Destroy(f),
        6..=7 => Op::Describe(f, random_name(rng).to_vec()),
        8..=10 => Op::Write(f, rng.below(length + 2), bytes),
        _ => Op::Write(f, length, bytes),
    }
}

fn plan(image: &[u8], drive: u32, op: &Op) -> Plan {
    match op {
        Op::Create(kind) => plan_create(image, drive, S, *kind),
        Op::Write(f, r, data) => plan_write(image, drive, S, *f, *r, data),
        Op::Describe(f, words) => plan_describe(image, drive, S, *f, words),
        Op::Destroy(f) => plan_destroy(image, drive, S, *f),
    }
}

fn call(image: &mut [u8], drive: u32, op: &Op, limit: u32) -> Answer {
    match op {
        Op::Create(kind) => create(image, drive, S, *kind, limit),
        Op::Write(f, r, data) => write(image, drive, S, *f, *r, data, limit),
        Op::Describe(f, words) => describe(image, drive, S, *f, words, limit),
        Op::Destroy(f) => destroy(image, drive, S, *f, limit),
    }
}

/// How many describes were done, whole or cut, and how many were refused by 12.
#[derive(Default)]
struct Names {
    taken: u32,
    bad: u32,
}

/// One random call, whole or cut and repaired; the model after it.
fn step(rng: &mut Rng, image: &mut [u8], drive: u32, model: Model, names: &mut Names) -> Model {
    let op = random_op(rng, &model);
    let plan = plan(image, drive, &op);
    let new = match model.after(&op) {
        Ok(new) => new,
        Err(number) => {
            let before = image.to_vec();
            assert_eq!(call(image, drive, &op, ALL), refused(number));
            assert!(plan.stores.is_empty() && image == before);
            names.bad += u32::from(number == 12);
            return model;
        }
    };
    names.taken += u32::from(matches!(op, Op::Describe(..)));
    let stores = plan.stores.len();
    assert!((1..=7).contains(&stores) && plan.deciding < stores);
    let limit = if rng.below(2) == 0 { ALL } else { rng.below(stores as u32 + 1) };
    let made = stores.min(limit as usize);
    assert_eq!(call(image, drive, &op, limit), Answer { made: made as u32, ..plan.answer });
    if made == stores {
        return new;
    }
    assert_eq!(repair(image, drive, S, ALL).outcome, DONE);
    if made > plan.deciding {
        new.repaired()
    } else {
        model.repaired()
    }
}

/// All LDAs of the PIB and of the files.
fn ldas(image: &[u8], model: &Model) -> Vec<Place> {
    let of_file = |(&f, file): (&u32, &ModelFile)| ldas_of_file(image, f, file.data.len() as u32);
    ldas_of_pib(S).into_iter().chain(model.files.iter().flat_map(of_file)).collect()
}

/// Request 2: an LDA is the one that stood in its place before, if that named the same block, and else
/// has no low bits. A record that is new to its file had no LDA in that place.
fn kept_or_clean(before: &[u8], old: &Model, after: &[u8], new: &Model) {
    let had = |f: u32, b: u32| old.files.get(&f).is_some_and(|file| file.blocks.contains(&b));
    let stayed: Vec<u32> = new
        .files
        .iter()
        .flat_map(|(&f, file)| file.blocks.iter().copied().filter(move |&b| had(f, b)))
        .chain([S])
        .collect();
    for (b, at) in ldas(after, new) {
        let (was, is) = (pair(before, b, at), pair(after, b, at));
        let clean = is & 0xFFFF_FF00;
        let keeps = stayed.contains(&b) && was & 0xFFFF_FF00 == clean;
        assert_eq!(is, if keeps { was } else { clean }, "block {b} word {at}");
    }
}

/// So many random calls; with `low_bits`, in images that have them in every LDA now and then.
fn agree(drive: u32, seed: u64, calls: u32, low_bits: bool, names: &mut Names) {
    let mut rng = Rng::new(seed * 4 + u64::from(drive));
    let lengths = [rng.below(70), rng.below(200), rng.below(66), 0];
    let mut image = sample::scattered(drive, N, S, E, &lengths, seed);
    let outside = |image: &[u8]| [&image[..528 * 7], &image[528 * 391..]].concat();
    let before = outside(&image);
    let mut model = observe(&image, drive);
    for call in 0..calls {
        if low_bits && call % 8 == 0 {
            let places = ldas(&image, &model);
            lay_low_bits(&mut image, &places);
            assert_eq!(observe(&image, drive), model);
        }
        let (image_before, model_before) = (image.clone(), model.clone());
        model = step(&mut rng, &mut image, drive, model, names);
        assert_eq!(observe(&image, drive), model);
        kept_or_clean(&image_before, &model_before, &image, &model);
    }
    assert!(outside(&image) == before);
}

#[test]
fn random_calls_agree_with_the_model() {
    let mut names = Names::default();
    for drive in 0..4 {
        (0..2).for_each(|seed| agree(drive, seed, 200, false, &mut names));
    }
    assert!(names.taken >= 40 && names.bad >= 40);
}

#[test]
fn random_calls_among_low_bits_agree_with_the_model() {
    let mut names = Names::default();
    for drive in 0..4 {
        (2..4).for_each(|seed| agree(drive, seed, 200, true, &mut names));
    }
    assert!(names.taken >= 40 && names.bad >= 40);
}
