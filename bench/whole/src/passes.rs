//! Parts of reading: the words alone, and the first pass, which meets them once.

#[link(name = "front_c", kind = "static")]
extern "C" {
    fn windnadel_words(text: *const u8, text_len: usize) -> u64;
    fn windnadel_grammar(text: *const u8, text_len: usize) -> u64;
}

pub fn words(source: &[u8]) -> u64 {
    // The source is borrowed for the call.
    unsafe { windnadel_words(source.as_ptr(), source.len()) }
}

pub fn first(source: &[u8]) -> u64 {
    // The source is borrowed for the call.
    unsafe { windnadel_grammar(source.as_ptr(), source.len()) }
}
