//! Descriptions with a good name, and request 5's rule in another shape than the library's: each bad
//! text is searched for in the name.

/// A description of this byte throughout but for the name "a", which describe takes.
pub fn described(byte: u8) -> [u8; 104] {
    named_among(byte, b"a")
}

/// A description of this byte throughout but for this name.
pub fn named_among(byte: u8, text: &[u8]) -> [u8; 104] {
    let mut words = [byte; 104];
    words[22] = text.len() as u8;
    words[23..][..text.len()].copy_from_slice(text);
    words
}

/// The first rule that the name in a description breaks, and where; (0, 0) if the name is good.
pub fn first_fault(words: &[u8]) -> (u32, u32) {
    let length = usize::from(words[22]);
    if !(1..=80).contains(&length) {
        return (1, 0);
    }
    let text = &words[23..23 + length];
    let place = |bad: &[u8]| text.windows(bad.len()).position(|part| part == bad);
    let mut places = Vec::new();
    for control in (0..32).chain([127]) {
        places.extend(place(&[control]).map(|at| (at, 2)));
    }
    for bad in ["<", "/", ":"] {
        places.extend(place(bad.as_bytes()).map(|at| (at, 3)));
    }
    places.extend(text.ends_with(b">").then_some((length - 1, 4)));
    for bad in [">.>", ">..>"] {
        places.extend(place(bad.as_bytes()).map(|at| (at, 5)));
    }
    places.into_iter().min().map_or((0, 0), |(at, rule)| (rule, at as u32 + 1))
}
