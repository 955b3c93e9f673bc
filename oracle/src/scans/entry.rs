//! What crates/searches gives to C: the answers as words of 64 bits, low byte first, and two walks over the whole.

unsafe extern "C" {
    /// 1 or 0 for found or not, the offset, the fourth byte, and how many places were looked at.
    pub fn scan_code_words(s: *const u8, s_len: usize, from: usize, place: *mut u8, place_len: usize);
    /// The same without the last.
    pub fn next_code_words(s: *const u8, s_len: usize, from: usize, place: *mut u8, place_len: usize);
    /// How many codes there are.
    pub fn codes_by_blocks(s: *const u8, s_len: usize) -> u64;
    /// How many places are looked at from code to code.
    pub fn looked_by_places(s: *const u8, s_len: usize) -> u64;
}
