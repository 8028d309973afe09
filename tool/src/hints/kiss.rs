//! What could stand at the place where a KISS text is refused.

use super::Hint;
use crate::calls;
use crate::safe;

/// Asks the proved call, with each byte put at the place: it may stand there exactly if the text up to it is not refused
/// at it.
pub fn hint(text: &[u8], place: usize) -> Hint {
    let found = match text.get(place) {
        None => "the text stops here, and none does".to_string(),
        Some(_) if goes_on(&text[..place], None) => "the text is whole before this".to_string(),
        Some(b'\n') => "no text has the end of the line here".to_string(),
        Some(&byte) => format!("no text goes on with `{}` here", safe::byte(byte)),
    };
    let bytes: Vec<u8> = (0..=255).filter(|&byte| goes_on(&text[..place], Some(byte))).collect();
    if bytes.is_empty() {
        return Hint::found(found).right("nothing may follow");
    }
    Hint::found(found).right(format!("{} could stand here", listed(&bytes)))
}

/// Some text begins so; without a byte, is one.
fn goes_on(before: &[u8], byte: Option<u8>) -> bool {
    let text: Vec<u8> = before.iter().copied().chain(byte).collect();
    match calls::kiss_read(&text) {
        Ok(_) => true,
        Err(refusal) => byte.is_some() && refusal.place > before.len(),
    }
}

/// `a`, `b` or the end of the line.
fn listed(bytes: &[u8]) -> String {
    let named = |&byte: &u8| match byte {
        b'\n' => "the end of the line".to_string(),
        b' ' => "a blank".to_string(),
        _ => format!("`{}`", safe::byte(byte)),
    };
    let mut words: Vec<String> = bytes.iter().map(named).collect();
    // What has no sign of its own is said last.
    words.sort_by_key(|word| !word.starts_with('`'));
    match words.split_last() {
        Some((last, rest)) if !rest.is_empty() => format!("{} or {last}", rest.join(", ")),
        _ => words.concat(),
    }
}
