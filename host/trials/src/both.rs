//! One image in two copies: a call is made on the library with one and on the reference with the other, and everything
//! that a caller could see must be the same.

use crate::call::{on_library, on_reference, Call, Group, Name};
use perq::RECORD;
use reference::{Answer, REFUSED};

/// Images up to this length are compared after every call, longer ones only after calls that change them or look into
/// directories.
const SMALL: usize = 64 * RECORD;

/// The two copies.
#[derive(Clone)]
pub struct Both {
    library: Vec<u8>,
    reference: Vec<u8>,
}

impl Both {
    pub fn new(image: Vec<u8>) -> Both {
        Both { library: image.clone(), reference: image }
    }

    pub fn image(&self) -> &[u8] {
        &self.reference
    }

    /// Changes both copies in the same way.
    pub fn edit(&mut self, change: impl Fn(&mut Vec<u8>)) {
        change(&mut self.library);
        change(&mut self.reference);
    }

    /// Makes the call on both sides and answers what they say; see [`Both::call_with`].
    pub fn call(&mut self, call: &Call) -> Answer {
        self.call_with(call, &[]).0
    }

    /// Makes the call on both sides, with the second image of a pair; answers the answer and the buffer after it.
    ///
    /// # Panics
    /// If an answer, a byte of the image or a byte of the buffer differs, or a refused call has touched its buffer.
    pub fn call_with(&mut self, call: &Call, repaired: &[u8]) -> (Answer, Vec<u8>) {
        let mut buffers = [call.buffer.clone(), call.buffer.clone()];
        let ours = on_library(call, &mut self.library, repaired, &mut buffers[0]);
        let theirs = on_reference(call, &mut self.reference, repaired, &mut buffers[1]);
        assert_eq!(ours, theirs, "library and reference answer otherwise to {}", told(call));
        let always = call.name.group() == Group::Changing || Name::DIRECTORIES.contains(&call.name);
        if always || self.library.len() <= SMALL {
            self.must_be_alike(call);
        }
        assert!(buffers[0] == buffers[1], "the buffers differ after {}", told(call));
        let [buffer, _] = buffers;
        assert!(
            ours.outcome != REFUSED || buffer == call.buffer,
            "a refusal touched the buffer of {}",
            told(call)
        );
        (ours, buffer)
    }

    fn must_be_alike(&self, call: &Call) {
        if let Some(at) = first_difference(&self.library, &self.reference) {
            let (block, byte) = (at / RECORD, at % RECORD);
            panic!("the images differ in block {block}, byte {byte} after {}", told(call));
        }
    }
}

/// The first place at which two images differ.
fn first_difference(one: &[u8], other: &[u8]) -> Option<usize> {
    if one == other {
        return None;
    }
    let shared = one.iter().zip(other).position(|(a, b)| a != b);
    Some(shared.unwrap_or_else(|| one.len().min(other.len())))
}

/// A call in a line; of its rule and its buffer only the length.
pub fn told(call: &Call) -> String {
    let Call { name, drive, s, f, r, number, limit, ref rule, ref path, ref buffer } = *call;
    let (rule, path, buffer) = (rule.len(), path.escape_ascii(), buffer.len());
    format!(
        "{name:?} drive {drive} s {s} f {f} r {r} number {number} limit {limit} rule of {rule} path '{path}' buffer of {buffer}"
    )
}
