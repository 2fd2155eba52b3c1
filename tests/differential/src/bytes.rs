//! Document 01's records, and those of change requests 2 and 3: their lengths and fields, and how a row of them is taken apart.

/// What a field may hold, which says where its boundaries lie.
#[derive(Clone, Copy, PartialEq)]
pub enum Class {
    /// u8, 1 to 255.
    Number,
    /// u8, any.
    Byte,
    /// u8 with few values, 0 and up.
    Small,
    /// u8 that counts, to at most so many.
    Count(u8),
    /// u16, any.
    Label,
    /// u16, bits 10 to 15 clear.
    Issues,
    /// u16 that counts, to at most 1,024.
    Frames,
    /// u32, any.
    Long,
    /// f32, finite and above 0.
    Scale,
    /// f32, above 0, at most 1.
    Share,
    /// f32, finite, sign clear.
    Weight,
    /// f32, of size at most 100.
    Knot,
    /// f32, of size at most 128.
    Point,
    /// f32, of size at most 50.
    Tail,
    /// f32, finite.
    End,
    /// f32, any.
    Float,
}

/// A field of a record: its offset from the record's kind, and its class.
pub type Field = (usize, Class);

pub fn put_u16(to: &mut [u8], at: usize, v: u16) {
    to[at..at + 2].copy_from_slice(&v.to_le_bytes());
}

pub fn put_u32(to: &mut [u8], at: usize, v: u32) {
    to[at..at + 4].copy_from_slice(&v.to_le_bytes());
}

pub fn u16_at(b: &[u8], at: usize) -> u16 {
    u16::from_le_bytes([b[at], b[at + 1]])
}

pub fn u32_at(b: &[u8], at: usize) -> u32 {
    u32::from_le_bytes([b[at], b[at + 1], b[at + 2], b[at + 3]])
}

pub fn f32_at(b: &[u8], at: usize) -> f32 {
    f32::from_bits(u32_at(b, at))
}

/// The length of a record of this kind, its kind included.
pub fn record_length(kind: u8) -> Option<usize> {
    Some(match kind {
        1 | 7 | 17 | 24 => 9,
        2 => 56,
        3 => 19,
        4 => 7,
        5 => 46,
        6 | 23 | 55 => 1,
        18 => 15,
        19 => 18,
        20 => 6,
        21 => 7,
        22 => 45,
        48 => 46,
        50 => 10,
        _ => return None,
    })
}

/// The offsets at which records begin, up to the first that is none; then that offset.
pub fn starts(b: &[u8]) -> Vec<usize> {
    let mut at = 0;
    let mut all = Vec::new();
    while at < b.len() {
        match record_length(b[at]) {
            Some(n) if at + n <= b.len() => {
                all.push(at);
                at += n;
            }
            _ => break,
        }
    }
    all.push(at);
    all
}

/// The fields of a record of this kind. What stands twice is drawn twice as often.
pub fn fields(kind: u8) -> Vec<Field> {
    use Class::*;
    let floats = |from: usize, n: usize, class: Class| (0..n).map(move |k| (from + 4 * k, class));
    let mut all: Vec<Field> = match kind {
        1 | 17 => vec![(1, Scale), (5, Share)],
        7 | 24 => vec![(1, Tail), (5, Tail)],
        2 => vec![
            (1, Number),
            (2, Share),
            (6, Count(10)),
            (47, Small),
            (48, End),
            (52, End),
        ],
        3 => vec![(1, Number), (2, Byte)],
        4 => vec![(1, Label), (3, Byte), (4, Byte), (5, Small), (6, Small)],
        5 => vec![(1, Weight), (5, Count(10)), (1, Weight), (5, Count(10))],
        18 => vec![(1, Number), (2, Share), (6, Small), (7, End), (11, End)],
        19 => vec![(1, Number), (1, Number)],
        20 => vec![(1, Number), (2, Number), (3, Byte), (4, Byte), (5, Byte)],
        21 => vec![
            (1, Number),
            (2, Number),
            (3, Small),
            (4, Label),
            (6, Count(4)),
            (6, Count(4)),
        ],
        22 => vec![(1, Weight), (1, Weight), (1, Weight)],
        48 => vec![
            (1, Byte),
            (2, Byte),
            (3, Byte),
            (4, Small),
            (4, Small),
            (5, Long),
            (9, Long),
            (13, Float),
            (17, Float),
            (21, Issues),
            (21, Issues),
            (23, Count(4)),
            (23, Count(4)),
            (44, Frames),
            (44, Frames),
        ],
        50 => vec![(1, Small), (1, Small), (1, Small), (2, Float), (6, Float)],
        _ => Vec::new(),
    };
    match kind {
        2 => {
            all.extend_from_within(..);
            all.extend(floats(7, 10, Knot));
        }
        3 => all.extend(floats(3, 4, Scale)),
        5 => all.extend(floats(6, 10, Knot)),
        19 => all.extend(floats(2, 4, Scale)),
        22 => all.extend(floats(5, 10, Point)),
        48 => (0..4).for_each(|i| all.extend([(24 + 5 * i, Byte), (25 + 5 * i, Weight)])),
        _ => {}
    }
    all
}

/// Values on both sides of a float class's boundaries.
pub fn boundaries(class: Class) -> &'static [u32] {
    const NAN: u32 = 0x7FC0_0000;
    const INF: u32 = 0x7F80_0000;
    const MINUS: u32 = 0x8000_0000;
    match class {
        Class::Scale => &[
            0,
            MINUS,
            1,
            MINUS | 1,
            0x7F7F_FFFF,
            INF,
            MINUS | INF,
            NAN,
            0xBF80_0000,
        ],
        Class::Share => &[
            0,
            MINUS,
            1,
            MINUS | 1,
            0x3F80_0000,
            0x3F80_0001,
            0x3F7F_FFFF,
            INF,
            NAN,
        ],
        Class::Weight => &[
            0,
            MINUS,
            1,
            MINUS | 1,
            0x3F80_0000,
            0x3F80_0001,
            0x3F7F_FFFF,
            0x7F7F_FFFF,
            INF,
            MINUS | INF,
            NAN,
            MINUS | NAN,
        ],
        Class::Knot => &[
            0,
            MINUS,
            0x42C8_0000,
            0x42C8_0001,
            0xC2C8_0000,
            0xC2C8_0001,
            INF,
            MINUS | INF,
            NAN,
            0x7F80_0001,
            1,
        ],
        Class::Point => &[
            0,
            MINUS,
            0x4300_0000,
            0x4300_0001,
            0xC300_0000,
            0xC300_0001,
            0x42C8_0001,
            INF,
            MINUS | INF,
            NAN,
            0xFFFF_FFFF,
        ],
        Class::Tail => &[
            0,
            MINUS,
            0x4248_0000,
            0x4248_0001,
            0xC248_0000,
            0xC248_0001,
            0x42C8_0000,
            INF,
            MINUS | INF,
            NAN,
            MINUS | NAN,
            1,
            MINUS | 1,
        ],
        Class::End => &[
            0,
            MINUS,
            0x3F00_0000,
            0x7F7F_FFFF,
            0xFF7F_FFFF,
            INF,
            MINUS | INF,
            NAN,
            1,
        ],
        _ => &[
            0,
            MINUS,
            1,
            0x3F80_0000,
            INF,
            MINUS | INF,
            NAN,
            0xFFFF_FFFF,
            0x7F7F_FFFF,
        ],
    }
}
