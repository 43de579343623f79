//! Broken bytes against the standard library's decoder: `String::from_utf8_lossy` follows the rule of the Encoding Standard too, one U+FFFD for
//! each longest run that could have begun a sequence and for each stray byte. Bytes are compared, the place of refusal 3, and refusal 2.
use crate::compare::first_seed;
use crate::random::Random;
use spatzenherd::lent;

/// Both sides of each boundary of the table of well-formed sequences, the bytes of the byte order mark, and those that end a run or a line.
const BOUNDARIES: [u8; 40] = [
    0x00, 0x01, 0x0A, 0x0D, 0x41, 0x7F, 0x80, 0x81, 0x8F, 0x90, 0x91, 0x9E, 0x9F, 0xA0, 0xA1, 0xBB, 0xBE, 0xBF, 0xC0, 0xC1, 0xC2, 0xC3,
    0xDE, 0xDF, 0xE0, 0xE1, 0xE2, 0xEC, 0xED, 0xEE, 0xEF, 0xF0, 0xF1, 0xF2, 0xF3, 0xF4, 0xF5, 0xF8, 0xFE, 0xFF,
];

/// The longest string that is compared.
const LONGEST: usize = 24;

/// What document 01 does beside decoding: one leading EF BB BF dropped, line ends made LF, NUL made U+FFFD.
fn expected(raw: &[u8]) -> String {
    let raw = raw.strip_prefix(b"\xEF\xBB\xBF").unwrap_or(raw);
    let mut lines = Vec::with_capacity(raw.len());
    for (at, byte) in raw.iter().enumerate() {
        match (byte, raw.get(at + 1)) {
            (b'\r', Some(b'\n')) => {}
            (b'\r', _) => lines.push(b'\n'),
            _ => lines.push(*byte),
        }
    }
    String::from_utf8_lossy(&lines).replace('\0', "\u{FFFD}")
}

/// The first place that holds CR, NUL or a byte of no well-formed sequence.
fn first_not_plain(raw: &[u8]) -> Option<usize> {
    let well_formed = std::str::from_utf8(raw).map_or_else(|error| error.valid_up_to(), str::len);
    raw[..well_formed].iter().position(|byte| *byte == 0 || *byte == b'\r').or((well_formed < raw.len()).then_some(well_formed))
}

fn compare(raw: &[u8]) {
    let text = expected(raw);
    let need = text.len() as u64;
    assert!(text.len() <= 3 * raw.len(), "{raw:02X?} gives more than three times its length");
    let mut room = [0xAA; 3 * LONGEST];
    for (length, number) in [(3 * raw.len(), 0), (text.len(), 0), (text.len().saturating_sub(1), if text.is_empty() { 0 } else { 2 })] {
        let mut values = [0; 8];
        room.fill(0xAA);
        assert_eq!(lent::convert(raw, &mut room[..length], &mut values), number, "{raw:02X?} in a room of {length}");
        assert_eq!(values[0], need, "{raw:02X?} in a room of {length}");
        let written = if number == 0 { text.len() } else { 0 };
        assert_eq!(&room[..written], &text.as_bytes()[..written], "{raw:02X?}");
        assert!(room[written..].iter().all(|byte| *byte == 0xAA), "{raw:02X?}: the room after the text");
    }
    let mut values = [0; 8];
    let number = lent::first_not_plain(raw, &mut values);
    let place = (number == 3).then_some(values[0] as usize);
    assert_eq!(place, first_not_plain(raw), "{raw:02X?}: the first place that is not plain");
}

/// Every string of up to four of these bytes.
#[test]
fn strings_of_boundary_bytes() {
    let mut strings = 0;
    for length in 0..=4 {
        for number in 0..BOUNDARIES.len().pow(length) {
            let digit = |place: u32| BOUNDARIES[number / BOUNDARIES.len().pow(place) % BOUNDARIES.len()];
            let raw = [digit(0), digit(1), digit(2), digit(3)];
            compare(&raw[..length as usize]);
            strings += 1;
        }
    }
    println!("boundary bytes: {strings} strings compared with from_utf8_lossy, 0 differences");
}

/// Every string of up to two bytes, of all bytes.
#[test]
fn strings_of_two_bytes() {
    for first in 0..=255 {
        compare(&[first]);
        for second in 0..=255 {
            compare(&[first, second]);
        }
    }
}

/// Longer strings, of boundary bytes, any bytes and characters cut anywhere.
#[test]
fn longer_strings() {
    let (seed, strings) = (first_seed(), 1_000_000);
    println!("longer strings: {strings} strings, seed {seed}");
    let mut random = Random::new(seed);
    for _ in 0..strings {
        let mut raw = [0; LONGEST];
        let length = random.below(LONGEST + 1);
        let mut at = 0;
        while at < length {
            match random.below(3) {
                0 => raw[at] = random.word() as u8,
                1 => raw[at] = BOUNDARIES[random.below(BOUNDARIES.len())],
                _ => {
                    let mut room = [0; 4];
                    let character = char::from_u32(random.below(0x11_0000) as u32).unwrap_or('\u{20AC}');
                    let encoding = character.encode_utf8(&mut room).as_bytes();
                    let end = (at + 1 + random.below(encoding.len())).min(length);
                    raw[at..end].copy_from_slice(&encoding[..end - at]);
                    at = end - 1;
                }
            }
            at += 1;
        }
        compare(&raw[..length]);
    }
    println!("longer strings: {strings} strings compared with from_utf8_lossy, 0 differences");
}

/// The rooms of the examples of request Q-2; the texts are vectors.
#[test]
fn rooms_of_the_examples() {
    let cases: [(&[u8], usize, u64, u64); 8] = [
        (b"\xE2\x82A", 3, 2, 4),
        (b"\xE2\x82A", 4, 0, 4),
        (b"\xF0\x9F\x98", 2, 2, 3),
        (b"\xF0\x9F\x98", 3, 0, 3),
        (b"\xED\xA0\x80", 8, 2, 9),
        (b"", 0, 0, 0),
        (b"\xFF\xFF", 5, 2, 6),
        (b"\xFF\xFF", 6, 0, 6),
    ];
    for (raw, length, number, value) in cases {
        let (mut room, mut values) = ([0; 9], [0; 8]);
        assert_eq!(lent::convert(raw, &mut room[..length], &mut values), number);
        assert_eq!(values[0], value);
    }
}
