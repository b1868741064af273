//! Text in UTF-8.

/// The characters of text, as of [`Event::Text`](crate::Event::Text). C0 controls are characters too: a terminal carries out
/// `'\r'`, `'\n'`, `'\t'` and `'\x08'`, and skips the others (`char::is_ascii_control`). Bytes that aren't UTF-8 become U+FFFD, once for
/// each part that could be the start of a character, as the Unicode Standard recommends (3.9).
///
/// ```
/// let text: String = csicodec::characters(b"a\xc3\xa9\r\xff").collect();
/// assert_eq!(text, "aé\r\u{fffd}");
/// ```
pub fn characters(text: &[u8]) -> impl Iterator<Item = char> + Clone {
    text.utf8_chunks().flat_map(|chunk| {
        let wrong = (!chunk.invalid().is_empty()).then_some(char::REPLACEMENT_CHARACTER);
        chunk.valid().chars().chain(wrong)
    })
}

/// How many bytes stand ahead of the first ESC, or all, where none is among the first eight: by sixteen at a time, then by eight, then one
/// by one.
#[inline]
pub(crate) fn ahead_of_esc(bytes: &[u8]) -> usize {
    let mut rest = bytes.get(8..).unwrap_or(bytes);
    while let Some((block, others)) = rest.split_first_chunk::<16>() {
        if block.iter().fold(false, |any, byte| any | (*byte == 0x1b)) {
            break;
        }
        rest = others;
    }
    while let Some((word, others)) = rest.split_first_chunk() {
        if let Some(ahead) = first_esc(word) {
            return bytes.len() - rest.len() + ahead;
        }
        rest = others;
    }
    let ahead = rest.iter().position(|byte| *byte == 0x1b);
    bytes.len() - rest.len() + ahead.unwrap_or(rest.len())
}

/// Where the first ESC is among eight bytes.
#[inline(always)]
pub(crate) fn first_esc(word: &[u8; 8]) -> Option<usize> {
    const ONES: u64 = u64::from_ne_bytes([1; 8]);
    // What is 0 now is an ESC; the lowest bit that is set stands in the first of them.
    let word = u64::from_le_bytes(*word) ^ (ONES * 0x1b);
    let found = word.wrapping_sub(ONES) & !word & (ONES << 7);
    (found != 0).then(|| found.trailing_zeros() as usize / 8)
}
