//! The fields of a record that the tool itself reads or sets, by their places in docs/LAYOUT.md, and the names in them.

use perq::{DESCRIPTION, RECORD};

/// Data words of a partition's first block, and of the device's own block, LBN 0.
pub const ROOT_DIRECTORY: usize = 6;
pub const PARTITION_NAME: usize = 114;
pub const PARTITION_END: usize = 120;
pub const SUB_PARTITIONS: usize = 122;
/// How many LDAs the table at SUB_PARTITIONS has.
pub const TABLE: usize = 64;

/// Data words of a file's own block. What sort of file it is stands in its description.
pub const SORT: usize = 8;
pub const DIRECT: usize = 52;
pub const INDIRECT: usize = 180;
pub const DOUBLE: usize = 244;
pub const KIND: usize = 248;
pub const BLOCKS_IN_USE: usize = 249;
pub const LAST_BLOCK: usize = 250;

/// The sort of a directory.
pub const DIRECTORY: u16 = 3;

/// The first byte of the name in a description: word 11.
pub const NAME_AT: usize = 2 * 11;
/// The most characters that a file's name has room for.
pub const NAME_ROOM: usize = DESCRIPTION - NAME_AT - 1;

/// Where data word k of block b lies in an image.
pub fn place(b: u32, k: usize) -> usize {
    RECORD * b as usize + 16 + 2 * k
}

/// Data word k of block b, which the image has.
pub fn word(image: &[u8], b: u32, k: usize) -> u16 {
    let at = place(b, k);
    u16::from_le_bytes([image[at], image[at + 1]])
}

/// Data words k and k + 1 of block b as one address.
pub fn pair(image: &[u8], b: u32, k: usize) -> u32 {
    u32::from(word(image, b, k)) + 65_536 * u32::from(word(image, b, k + 1))
}

/// The serial in the header of block b.
pub fn serial(image: &[u8], b: u32) -> u32 {
    let at = RECORD * b as usize;
    u32::from_le_bytes([image[at], image[at + 1], image[at + 2], image[at + 3]])
}

/// The relative number in the header of block b.
pub fn relative_number(image: &[u8], b: u32) -> i16 {
    let at = RECORD * b as usize + 4;
    i16::from_le_bytes([image[at], image[at + 1]])
}

/// Bytes as a text: what cannot be printed is escaped.
pub fn escaped(bytes: &[u8]) -> String {
    let shown = |&byte: &u8| match byte {
        b'\\' => "\\\\".to_string(),
        b' '..=b'~' => char::from(byte).to_string(),
        _ => format!("\\x{byte:02x}"),
    };
    bytes.iter().map(shown).collect()
}

/// An entry's name as a text: '>' is escaped too, and a blank where it begins or ends, so that it cannot be taken for
/// another name or for several.
pub fn escaped_name(name: &[u8]) -> String {
    let last = name.len().saturating_sub(1);
    let shown = |(i, byte): (usize, &u8)| match byte {
        b' ' if i == 0 || i == last => "\\x20".to_string(),
        b'>' => "\\x3e".to_string(),
        _ => escaped(&[*byte]),
    };
    name.iter().enumerate().map(shown).collect()
}

/// A path as a text, its names each as `escaped_name` has them.
pub fn escaped_path(path: &[u8]) -> String {
    path.split(|&byte| byte == b'>').map(escaped_name).collect::<Vec<String>>().join(">")
}

/// The bytes of a text that `escaped` has made; none where a backslash stands for nothing.
pub fn unescaped(text: &[u8]) -> Option<Vec<u8>> {
    let mut bytes = Vec::with_capacity(text.len());
    let mut rest = text;
    while let Some((&first, behind)) = rest.split_first() {
        let (byte, behind) = match (first, behind) {
            (b'\\', [b'\\', behind @ ..]) => (b'\\', behind),
            (b'\\', [b'x', high, low, behind @ ..]) => (16 * digit(*high)? + digit(*low)?, behind),
            (b'\\', _) => return None,
            _ => (first, behind),
        };
        bytes.push(byte);
        rest = behind;
    }
    Some(bytes)
}

/// The value of a hexadecimal digit.
fn digit(letter: u8) -> Option<u8> {
    char::from(letter).to_digit(16).map(|value| value as u8)
}

/// The name of a partition or of the device: up to eight characters, blanks or zeros after them.
pub fn partition_name(image: &[u8], b: u32) -> &[u8] {
    let bytes = &image[place(b, PARTITION_NAME)..][..8];
    let length =
        bytes.iter().rposition(|&byte| byte != 0 && byte != b' ').map_or(0, |last| last + 1);
    &bytes[..length]
}

/// The name of a file, from its description: a length and so many characters. None if the length is 0 or more than
/// there is room for.
pub fn file_name(description: &[u8; DESCRIPTION]) -> Option<&[u8]> {
    let length = usize::from(description[NAME_AT]);
    (1..=NAME_ROOM).contains(&length).then(|| &description[NAME_AT + 1..][..length])
}
