//! Standard output and standard error. A reader that has seen enough, such as `head`, ends a command without a complaint,
//! and a standard error that takes nothing is left alone.

use std::io::{self, ErrorKind, Write};

/// Writes bytes to standard output.
pub fn bytes(bytes: &[u8]) -> io::Result<()> {
    let mut out = io::stdout().lock();
    match out.write_all(bytes).and_then(|()| out.flush()) {
        Err(error) if error.kind() == ErrorKind::BrokenPipe => Ok(()),
        written => written,
    }
}

/// Writes a line to standard error.
pub fn aside(line: &str) {
    // There is no third place to say that this has failed.
    let _ = io::stderr().write_all(format!("{line}\n").as_bytes());
}
