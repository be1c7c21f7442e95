//! Names of files: as a command line has them, as a person may safely read them, and their bytes in hex for a program.

use clap::builder::{PathBufValueParser, TypedValueParser};
use std::os::unix::ffi::OsStrExt;
use std::path::{Path, PathBuf};

/// A path as a text. What would steer a terminal or hide a part of the name is escaped, and so is what is no UTF-8.
pub fn shown(path: &Path) -> String {
    let mut text = String::new();
    for part in path.as_os_str().as_bytes().utf8_chunks() {
        part.valid().chars().for_each(|character| show(character, &mut text));
        text += &part.invalid().iter().map(|byte| format!("\\x{byte:02x}")).collect::<String>();
    }
    text
}

fn show(character: char, text: &mut String) {
    match character {
        '\\' => text.push_str("\\\\"),
        '\0'..='\x1f' | '\x7f' => text.push_str(&format!("\\x{:02x}", u32::from(character))),
        // The rest of the control characters, other ends of lines, and what turns the direction of writing.
        '\u{80}'..='\u{9f}'
        | '\u{61c}'
        | '\u{200e}'
        | '\u{200f}'
        | '\u{2028}'..='\u{202e}'
        | '\u{2066}'..='\u{2069}' => {
            text.extend(character.escape_unicode());
        }
        _ => text.push(character),
    }
}

/// The bytes of a name, exactly.
pub fn name_bytes(path: &Path) -> String {
    hex(path.as_os_str().as_bytes())
}

/// A path on the command line; a stroke is standard input, by the name that the system has for it.
pub fn path() -> impl TypedValueParser<Value = PathBuf> {
    PathBufValueParser::new().map(|path| match path.as_os_str().as_bytes() {
        b"-" => PathBuf::from("/dev/stdin"),
        _ => path,
    })
}

pub fn hex(bytes: &[u8]) -> String {
    let digit = |half: u8| char::from(b"0123456789abcdef"[usize::from(half)]);
    bytes.iter().flat_map(|byte| [digit(byte >> 4), digit(byte & 15)]).collect()
}
