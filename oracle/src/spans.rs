//! Where the pictures of a stream lie among its start codes, for the benchmark too.

/// How many picture start codes there are: no fewer than pictures.
pub fn picture_codes(stream: &[u8]) -> usize {
    stream.windows(4).filter(|w| w == &[0, 0, 1, 0]).count()
}

/// For each picture the index of its code, and of the first code after its slices.
pub fn spans(codes: &[(usize, u8)]) -> Vec<(usize, usize)> {
    let slice = |i: &usize| (0x01..=0xAF).contains(&codes[*i].1);
    let mut found = vec![];
    let mut i = 0;
    while let Some(picture) = (i..codes.len()).find(|&i| codes[i].1 == 0) {
        let first = (picture..codes.len()).find(slice).unwrap_or(codes.len());
        i = (first..codes.len()).find(|i| !slice(i)).unwrap_or(codes.len());
        found.push((picture, i));
    }
    found
}
