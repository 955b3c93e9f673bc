//! The places that a scan looks at, by the words of paper 02, request 03, and by nothing quicker.

/// In the order in which the scan comes to them.
pub fn looked_at(s: &[u8], from: usize) -> Vec<usize> {
    let mut places = vec![];
    let mut place = from;
    while four_bytes_from(s, place) {
        places.push(place);
        if code_at(s, place) {
            return places;
        }
        let third = s[place + 2];
        place += if third == 0 { 1 } else { 3 };
    }
    places
}

/// "A place with four bytes from it on is looked at."
fn four_bytes_from(s: &[u8], place: usize) -> bool {
    s.len() >= 4 && place <= s.len() - 4
}

/// A start code is 00 00 01 and one more byte, of any value.
pub fn code_at(s: &[u8], place: usize) -> bool {
    s[place] == 0 && s[place + 1] == 0 && s[place + 2] == 1
}
