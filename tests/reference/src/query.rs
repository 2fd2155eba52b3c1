//! Document 01, "Query", with kind 55 of change request 3.

use crate::bytes::*;
use crate::plant::*;
use crate::Refusal;

pub struct Query<'a> {
    pub accent: u8,
    pub tone: u8,
    pub prev: u8,
    pub fin: bool,
    pub start: u32,
    pub end: u32,
    pub floor: f32,
    pub ceil: f32,
    pub issues: u16,
    pub variant_count: usize,
    pub variants: [(u8, f32); 4],
    /// "kind 55, without a body, straight after its query record"
    pub cold: bool,
    /// "the part of the caller's bytes that holds the frames"
    pub frames: &'a [u8],
}

pub const FRAME: usize = 10;

fn length_of(kind: u8) -> Option<usize> {
    Some(match kind {
        48 => 46,
        50 => FRAME,
        COLD if planted(COLD_BODY) => 2,
        COLD => 1,
        _ => return None,
    })
}

/// The kind of the record that asks for a register of the query's own frames.
const COLD: u8 = 55;

/// As many frames as the query record counts, from where the walk stands.
fn frames(walk: &mut Walk, count: usize) -> Result<(), Refusal> {
    let off_scale = if planted(QUERY_OFF_SCALE) { 5 } else { 10 };
    for i in 0..count {
        let cold_here = walk.bytes.get(walk.at) == Some(&COLD);
        if planted(COLD_DUE_SURPLUS) && cold_here {
            return refuse(3, walk.at);
        }
        if planted(COLD_AFTER_FRAME) && cold_here && i > 0 {
            walk.step(COLD);
        }
        walk.kind(|kind| kind == 50)?;
        walk.whole(50)?;
        let flag = walk.bytes[walk.at + 1];
        if planted(PLACE_FRAME_ZERO) && flag > 1 {
            return refuse(10, 0);
        }
        walk.check(off_scale, flag <= 1 || planted(FRAME_FLAG_2))?;
        if planted(FRAME_HZ_RANGE) && flag == 1 {
            walk.check(10, f32_at(walk.bytes, walk.at + 2).is_finite())?;
        }
        walk.step(50);
    }
    Ok(())
}

/// The end of a query that counts so many frames.
fn end(walk: &Walk, cold: bool, count: usize) -> Result<(), Refusal> {
    let Some(&kind) = walk.bytes.get(walk.at) else {
        return walk.end();
    };
    match () {
        _ if planted(COLD_BEHIND)
            && kind == COLD
            && count > 0
            && walk.at + 1 == walk.bytes.len() =>
        {
            Ok(())
        }
        _ if planted(COLD_SECOND_MISPLACED) && kind == COLD && cold && count == 0 => {
            refuse(1, walk.at)
        }
        _ if planted(COLD_BEHIND_MISPLACED) && kind == COLD && count > 0 => refuse(1, walk.at),
        _ if planted(COLD_OTHER_MISPLACED) && kind != COLD && !cold && count == 0 => {
            refuse(1, walk.at)
        }
        _ => walk.end(),
    }
}

/// A refusal whose place is a byte early, where the mistake is on.
fn early(refusal: Refusal, on: bool) -> Refusal {
    Refusal { place: refusal.place - u64::from(on), ..refusal }
}

impl<'a> Query<'a> {
    pub fn read(bytes: &'a [u8]) -> Result<Query<'a>, Refusal> {
        if planted(COLD_BEFORE) && bytes.first() == Some(&COLD) {
            return Query::read(&bytes[1..]);
        }
        let mut walk = Walk::new(bytes, length_of);
        walk.kind(|kind| kind == 48)?;
        walk.whole(48)?;
        let fin = bytes[4];
        let issues = u16_at(bytes, 21);
        let variant_count = usize::from(bytes[23]);
        let frame_count = usize::from(u16_at(bytes, 44));
        let used = variant_count.min(4);
        let mut variants = [(0, 0.0); 4];
        for (i, variant) in variants.iter_mut().enumerate() {
            *variant = (bytes[24 + 5 * i], f32_at(bytes, 25 + 5 * i));
        }
        // "final (0 or 1)", "bits 10 to 15 are clear", "unused ones zero"
        let last_final = if planted(QUERY_FINAL_2) { 2 } else { 1 };
        let clear_bits = if planted(QUERY_BIT_10) { 0xF800 } else { 0xFC00 };
        let unused = (used..4).all(|i| {
            let at = 24 + 5 * i;
            (bytes[at] == 0 || planted(UNUSED_VARIANT_TONE))
                && unused_floats(&bytes[at + 1..at + 5], UNUSED_VARIANT_MINUS_ZERO)
        });
        let mut in_range = fin <= last_final && issues & clear_bits == 0 && unused;
        if planted(QUERY_SPAN_ORDER) {
            in_range &= u32_at(bytes, 5) <= u32_at(bytes, 9);
        }
        if planted(QUERY_REGISTER_RANGE) {
            in_range &= f32_at(bytes, 13).is_finite() && f32_at(bytes, 17).is_finite();
        }
        if planted(QUERY_WEIGHT_RANGE) {
            in_range &= variants.iter().all(|v| v.1 >= 0.0);
        }
        // "variant count u8 (at most 4)", "frame count u16, at most 1,024"
        let most_frames = if planted(FRAMES_1025) {
            1025
        } else if planted(FRAMES_1023) {
            1023
        } else {
            1024
        };
        let most_variants = if planted(VARIANTS_3) { 3 } else { 4 };
        let counts = variant_count <= most_variants && frame_count <= most_frames;
        if planted(BAD_QUERY_BEFORE_COUNT) {
            walk.check(10, in_range)?;
        }
        if planted(QUERY_COUNT_IS_BAD) {
            walk.check(10, counts)?;
        }
        walk.check(4, counts)?;
        let off_scale = if planted(QUERY_OFF_SCALE) { 5 } else { 10 };
        walk.check(off_scale, in_range)?;
        walk.step(48);
        let here = |walk: &Walk| bytes.get(walk.at) == Some(&COLD);
        let known = !planted(COLD_UNKNOWN) && !(planted(COLD_NO_FRAMES) && frame_count == 0);
        let cold = here(&walk) && known;
        if cold {
            walk.whole(COLD)?;
            walk.step(COLD);
            if planted(COLD_TWICE) && here(&walk) {
                walk.step(COLD);
            }
            if planted(COLD_LONGEST) && frame_count == 1024 {
                return refuse(4, 0);
            }
            if planted(COLD_PLACE_ZERO) && frame_count > 0 && walk.at == bytes.len() {
                return refuse(2, 0);
            }
        } else if planted(COLD_NEEDED) {
            return refuse(1, walk.at);
        }
        let first = walk.at;
        if planted(FRAMES_NONE) && frame_count == 0 {
            return refuse(10, 0);
        }
        let counted = frame_count.saturating_sub(usize::from(cold && planted(COLD_COUNTED)));
        frames(&mut walk, counted).map_err(|r| early(r, cold && planted(COLD_PLACE_FRAME)))?;
        end(&walk, cold, frame_count).map_err(|r| early(r, cold && planted(COLD_PLACE_SURPLUS)))?;
        let shift = usize::from(cold && planted(COLD_FRAMES_EARLY));
        Ok(Query {
            accent: bytes[1],
            tone: bytes[2],
            prev: bytes[3],
            fin: fin != 0,
            start: u32_at(bytes, 5),
            end: u32_at(bytes, 9),
            floor: f32_at(bytes, 13),
            ceil: f32_at(bytes, 17),
            issues,
            variant_count: used,
            variants,
            cold,
            frames: &bytes[first - shift..walk.at - shift],
        })
    }
}
