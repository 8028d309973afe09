//! Bytes that others wrote, fit to be shown: nothing but printable ASCII reaches the terminal.

use std::ffi::OsStr;
use std::os::unix::ffi::OsStrExt;

/// One byte as shown: a tab as one blank, so that columns stay bytes; what is not printable as `\x1b`.
pub fn byte(byte: u8) -> String {
    match byte {
        b' '..=b'~' => char::from(byte).to_string(),
        b'\t' => " ".to_string(),
        _ => format!("\\x{byte:02x}"),
    }
}

pub fn bytes(text: &[u8]) -> String {
    text.iter().map(|&one| byte(one)).collect()
}

/// A path or an argument as shown.
pub fn path(name: &OsStr) -> String {
    bytes(name.as_bytes())
}
