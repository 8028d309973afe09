//! Numbers of things, in words.

/// `1 block`, `2 blocks`.
pub fn count(number: usize, thing: &str) -> String {
    format!("{number} {thing}{}", if number == 1 { "" } else { "s" })
}
