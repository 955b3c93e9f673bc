//! Headers and streams with a name: one for each difference from the standards in which the original wins, and those of rates with
//! extensions, in which it does not (docs/DIFFERENCES.md); the worked lists of film mode as streams; and streams of a variable rate.

use crate::cadence::SEQUENCES;
use crate::draw::Draw;
use crate::streams;
use crate::worked::{LISTS, pictures, sequence, stream};

/// Name, kind, and the bytes of the header or stream.
const KNOWN: [(&str, u8, &str); 46] = [
    ("low 18 rate bits of zero are refused", 1, "000001B301001013000020A0"),
    ("constrained_parameters_flag 1", 1, "000001B301001013027120A4"),
    ("reserved aspect and rate codes", 1, "000001B3010010F9027120A0"),
    ("MPEG-1's aspect code 2", 1, "000001B301001023027120A0"),
    ("4:2:2 in Main profile", 2, "000001B5148400010000"),
    ("forward_f_code 0", 4, "000001000010000000"),
    ("extra_information_picture", 4, "000001000008000400"),
    ("reserved f_codes", 5, "000001B58AAAA34180"),
    ("a field picture with frame_pred_frame_dct and top_field_first", 5, "000001B58FFFF1C100"),
    ("zeros of a start code lie in the header before it", 6, "000001000008000001B58FFFF34180"),
    ("padding that is not zero, of a picture header", 6, "0000010000080001000001B58FFFF34180"),
    ("padding that is not zero, of a coding extension", 5, "000001B58FFFF341BF"),
    ("the greatest rate, 240000/32032", 14, "07031F"),
    ("25/1 as 50/2, by d", 14, "060001"),
    ("25/1 as 50/2, by n and d", 14, "030101"),
    ("no such code", 14, "090000"),
    ("no such code, and n 4", 14, "090400"),
    ("no such code, and d 32", 14, "000020"),
    (
        "paper 01's own stream",
        18,
        "000001B301001013027120A0 000001B5148200010000 000001B800080040 \
         00000100000AB330 000001B58FFFF34180 000001011234 000001B7",
    ),
    (
        "repeat_first_field is not read",
        18,
        "000001B301001013027120A0 000001B5148200010000 \
         00000100000AB330 000001B58FFFF34380 00000101 00000100000B2338 000001B58FFFF34180 00000101",
    ),
    (
        "frame_rate_extension_n 1, with the delay of the code alone",
        18,
        "000001B301001013027120A0 000001B5148200010020 \
         00000100000AB330 000001B58FFFF34180 00000101 00000100000B2338 000001B58FFFF34180 00000101",
    ),
    (
        "frame_rate_extension_n 1, with the delay of twice the rate",
        18,
        "000001B301001013027120A0 000001B5148200010020 \
         00000100000AB330 000001B58FFFF34180 00000101 00000100000AEAF8 000001B58FFFF34180 00000101",
    ),
    (
        "25/1 as code 6 with frame_rate_extension_d 1",
        18,
        "000001B301001016027120A0 000001B5148200010001 \
         00000100000AB330 000001B58FFFF34180 00000101 00000100000B2338 000001B58FFFF34180 00000101",
    ),
    (
        "frame_rate_extension_n 1 in MPEG-1 is not read",
        17,
        "000001B301001013027120A0 000001B5148200010020 \
         00000100000AB330 000001B58FFFF34180 00000101 00000100000B2338 000001B58FFFF34180 00000101",
    ),
    (
        "a later sequence header is not read",
        17,
        "000001B301001013027120A0 00000100000AB330 00000101 000001B30100101304E220A0 00000100000B2328 00000101",
    ),
    ("rate field 0x3FFFF in MPEG-1 is a plain rate", 17, "000001B301001013FFFFE0A0 0000010000080008 00000101"),
    (
        "a later 0xFFFF passes where 0xFFFE is expected",
        17,
        "000001B3010010182C0EB910 00000100000FD110 00000101 00000100000FFFF8 00000101",
    ),
    (
        "a picture without slices swallows what follows",
        17,
        "000001B301001013027120A0 00000100000AB330 0000010000080000 00000101",
    ),
    (
        "zeros of a start code lie in the header before it",
        18,
        "000001B301001013027120A0 000001B5148200010000 0000010000090000 01B58FFFF34180 00000101",
    ),
    (
        "low 18 rate bits of zero are refused",
        18,
        "000001B301001013000020A0 000001B5148200030000 0000010000080008 000001B58FFFF34180 00000101",
    ),
    ("a picture before the first sequence header counts", 17, "00000100000AB330 00000101 000001B301001013027120A0"),
    (
        "22,401 bits a second, rounded up to 57 x 400",
        17,
        "000001B301001013000E6008 0000010000091940 00000101 0000010000097DB0 00000101",
    ),
    (
        "a buffer that lasts longer than a delay can say",
        18,
        "000001B30100101304E22380 000001B5148200010000 0000010000091940 000001B58FFFF34180 00000101",
    ),
    (
        "low_delay is not read",
        18,
        "000001B301001013027120A0 000001B5148200010080 0000010000080000 000001B58FFFF34180 00000101",
    ),
    (
        "a sequence after a sequence_end_code goes on in the same run",
        18,
        "000001B301001013027120A0 000001B5148200010000 00000100000AB330 000001B58FFFF34180 00000101 000001B7 \
         000001B301001013027120A0 000001B5148200010000 00000100000B22A0 000001B58FFFF34180 00000101 000001B7",
    ),
    ("bytes before the first sequence header are data", 17, "4170 000001B301001013027120A0 00000100000AB330 00000101"),
    ("a D picture among others", 17, "000001B301001013027120A0 00000100000AB330 00000101 0000010000232368 00000101"),
    (
        "fields of one parity, 4:2:2 in Main profile, flags that do not go together",
        18,
        "000001B301001013027120A0 000001B5148C00010000 00000100025AB333B8 000001B581E29DC100 00000101 \
         00000100025AEAF3B8 000001B58FFFF1C100 00000101",
    ),
    (
        "slices out of order, and other codes around them",
        18,
        "000001B301001013027120A0 000001B5148200010000 000001B0 000001B5F0 00000100000AB330 000001B58FFFF34180 \
         00000105 00000101 000001B4 00000102 000001E0 00000100000B22D8 000001B58FFFF34180 00000101",
    ),
    (
        "a group header is not read",
        18,
        "000001B301001013027120A0 000001B5148200010000 000001B8FFF7FFE0 000001000012B33380 000001B58FFFF34180 00000101",
    ),
    (
        "repeat_first_field of the first picture: a field more between the second and the third",
        20,
        "000001B301001013027120A0 000001B5148200010000 0000010000091940 000001B58FFFF34380 00000101 \
         0000010000098948 000001B58FFFF34180 00000101 00000100000A3190 000001B58FFFF34180 00000101",
    ),
    (
        "the same with the delay of a plain check",
        20,
        "000001B301001013027120A0 000001B5148200010000 0000010000091940 000001B58FFFF34380 00000101 \
         0000010000098948 000001B58FFFF34180 00000101 000001000009F950 000001B58FFFF34180 00000101",
    ),
    (
        "low_delay 1: a field more between the first and the second",
        20,
        "000001B301001013027120A0 000001B5148200010080 00000100000AB330 000001B58FFFF34380 00000101 \
         00000100000B5B78 000001B58FFFF34180 00000101",
    ),
    (
        "paper 01's own stream with 0xFFFF for its delay",
        24,
        "000001B301001013027120A0 000001B5148200010000 000001B800080040 \
         00000100000FFFF8 000001B58FFFF34180 000001011234 000001B7",
    ),
    (
        "paper 01's own stream as it is",
        24,
        "000001B301001013027120A0 000001B5148200010000 000001B800080040 \
         00000100000AB330 000001B58FFFF34180 000001011234 000001B7",
    ),
    (
        "two pictures, the first with repeat_first_field, in either mode",
        20,
        "000001B301001013027120A0 000001B5148200010000 00000100000AB330 000001B58FFFF34380 00000101 00000100000B2338 \
         000001B58FFFF34180 00000101",
    ),
];

/// Those of a kind: name and bytes. Of kinds 8 and 10 these are a writer's numbers and output part.
pub fn known(kind: u8) -> Vec<(String, Vec<u8>)> {
    let worked = if kind == 20 { worked() } else { vec![] };
    named(kind).into_iter().map(|(name, bytes)| (name.to_string(), bytes)).chain(worked).collect()
}

/// The lists of worked.rs as streams, in each sequence.
fn worked() -> Vec<(String, Vec<u8>)> {
    let mut all = vec![];
    for (letters, _) in LISTS {
        for (column, name) in SEQUENCES.iter().enumerate() {
            let stream = streams::of(&pictures(letters), sequence(column), &mut Draw(column as u64));
            all.push((format!("{letters}, {name}"), stream));
        }
    }
    all
}

fn named(kind: u8) -> Vec<(&'static str, Vec<u8>)> {
    let mut inputs: Vec<_> = KNOWN.iter().filter(|k| k.1 == kind).map(|&(name, _, hex)| (name, bytes(hex))).collect();
    match kind {
        1 => inputs.push(("a matrix of zeros", [bytes("000001B301001013027120A2"), vec![0; 64]].concat())),
        8 => {
            let numbers = bytes("1000 1000 0F 0F C4090000 1400 01");
            inputs.push(("reserved codes and a matrix of zeros", [numbers, vec![0; 64 + 65 + 76]].concat()));
        }
        10 => {
            inputs.push(("hours 31, drop_frame_flag and broken_link", bytes("01 1F 3F 3F 3F 00 01 0000000000000000")))
        }
        17 => inputs.push(("a Video CD: 1,151,929 bits a second, rounded up to 2880 x 400", video_cd())),
        24 => inputs.extend(variable()),
        _ => {}
    }
    inputs
}

/// Streams of a variable rate, at 25/1.
fn variable() -> [(&'static str, Vec<u8>); 10] {
    const NO: u64 = 0xFFFF;
    [
        ("10,043 bytes, then 122 a picture: a frame, a frame, two fields", {
            stream([2500, 20], "I P bb", &[80_344, 976, 976, 976], &[NO; 4])
        }),
        ("a first picture of B bits, headers in it", stream([2500, 1], "I P", &[16_384, 976], &[NO; 2])),
        ("a byte more", stream([2500, 1], "I P", &[16_392, 976], &[NO; 2])),
        ("the same with 0xFFFE in the second", stream([2500, 1], "I P", &[16_392, 976], &[NO, 0xFFFE])),
        (
            "0xFFFE before a picture that underflows",
            stream([56, 1], "I P B", &[976, 16_384, 16_384], &[NO, 0xFFFE, NO]),
        ),
        ("a buffer too large for a constant rate", stream([56, 1], "I P", &[976, 16_304], &[NO; 2])),
        ("the same with a byte more", stream([56, 1], "I P", &[976, 16_312], &[NO; 2])),
        ("896 bits a picture, and no more", stream([56, 1], "I P B", &[16_384, 896, 896], &[NO; 3])),
        ("a byte more in the last", stream([56, 1], "I P B", &[16_384, 896, 904], &[NO; 3])),
        ("no buffer", stream([56, 0], "I P", &[976, 976], &[NO; 2])),
    ]
}

/// Eight pictures of 5,760 bytes at a Video CD's rate, each with the delay that this rate gives, to the nearest tick.
fn video_cd() -> Vec<u8> {
    const RATE: usize = 1_151_929;
    let mut stream = bytes("000001B3 16012083 02D020A4 000001B8 00080040");
    let first = stream.len();
    for n in 0..8 {
        let at = stream.len();
        let ticks = (8 * (at - first) * 90_000 + RATE / 2) / RATE;
        let delay = 22_500 + 3_600 * n - ticks;
        stream.extend([0, 0, 1, 0]);
        stream.extend(((n << 22 | 1 << 19 | delay << 3) as u32).to_be_bytes());
        stream.extend([0, 0, 1, 1]);
        stream.resize(at + 5_760, 0);
    }
    stream
}

/// The bytes that hexadecimal digits give.
fn bytes(hex: &str) -> Vec<u8> {
    let digits: Vec<u8> = hex.chars().filter_map(|c| c.to_digit(16)).map(|d| d as u8).collect();
    digits.chunks(2).map(|pair| 16 * pair[0] + pair[1]).collect()
}
