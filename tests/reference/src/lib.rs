//! Document 01 once more, in Rust, with the change requests that have landed: packs, queries and
//! sheets, their refusals, shapes, judgements and the sheet of a pack. Written from the documents,
//! apart from the port, and used to judge the port's answers. See README.md.

#![forbid(unsafe_code)]

mod bytes;
mod judge;
mod list;
mod num;
mod pack;
mod plant;
mod query;
mod register;
mod shape;
mod sheet;

#[cfg(test)]
mod cases;
#[cfg(test)]
mod tests;

pub use num::{exp, expand_knots, ln, log2, max32, max64, min32, min64, narrow, root};
pub use plant::{plant, PLANTED};
pub use shape::solve;

use list::{List, Source, Tone};
use pack::Pack;
use plant::*;
use query::Query;
use register::Register;
use sheet::Sheet;

/// "the number and place its table fixes"
#[derive(Clone, Copy, Debug, PartialEq, Eq)]
pub struct Refusal {
    pub number: u8,
    pub place: u64,
}

/// One component of a lookup. Floats as bits.
#[derive(Clone, Copy, Debug, PartialEq, Eq)]
pub struct Component {
    pub owner: u8,
    pub form: u8,
    pub label: u16,
    pub part: u8,
    pub weight: u32,
    pub points: [u32; 10],
}

/// None if the pack loads.
pub fn check_pack(pack: &[u8]) -> Option<Refusal> {
    Pack::read(pack).err()
}

/// None if the bytes are a query.
pub fn check_query(query: &[u8]) -> Option<Refusal> {
    Query::read(query).err()
}

/// None if the sheet loads.
pub fn check_sheet(sheet: &[u8]) -> Option<Refusal> {
    Sheet::read(sheet).err()
}

/// "A pack's sheet is the bytes this section fixes for it, whatever buffer is lent"
pub fn write_sheet(pack: &[u8]) -> Result<Vec<u8>, Refusal> {
    Ok(sheet::write(&Pack::read(pack)?))
}

/// The shape record, 124 bytes. "It is written from a query alone."
pub fn write_shape(query: &[u8]) -> Result<Vec<u8>, Refusal> {
    let mut query = Query::read(query)?;
    query.cold &= !planted(COLD_JUDGED_ALONE);
    Ok(shape::extract(&query)?.record())
}

/// The judgement from a pack, 64 bytes. "Pack or sheet comes before query."
pub fn judge(pack: &[u8], query: &[u8]) -> Result<Vec<u8>, Refusal> {
    if planted(QUERY_FIRST) {
        Query::read(query)?;
    }
    let pack = Pack::read(pack)?;
    let mut query = Query::read(query)?;
    query.cold &= !planted(COLD_SHEET_ALONE);
    judge::judge(&pack, &query)
}

/// The judgement from a sheet, 64 bytes.
pub fn judge_sheet(sheet: &[u8], query: &[u8]) -> Result<Vec<u8>, Refusal> {
    if planted(QUERY_FIRST) {
        Query::read(query)?;
    }
    let sheet = Sheet::read(sheet)?;
    let mut query = Query::read(query)?;
    query.cold &= !planted(COLD_PACK_ALONE);
    judge::judge(&sheet, &query)
}

/// Floor, median and ceiling of `cold_register` over the voiced frames among these, which are records of kind 50.
pub fn register_of(frames: &[u8]) -> [f32; 3] {
    told(register::of_values(register::voiced(frames, register::ALL)))
}

/// The same of semitones.
pub fn cold_register(semitones: &[f32]) -> [f32; 3] {
    told(register::of_values(semitones.iter().copied().map(f64::from).collect()))
}

/// Floor and ceiling at least 4 semitones apart.
pub fn at_least_min_span(floor: f32, ceil: f32) -> [f32; 2] {
    let r = register::at_least_min_span(Register { floor, median: 0.0, ceil });
    [r.floor, r.ceil]
}

fn told(r: Register) -> [f32; 3] {
    [r.floor, r.median, r.ceil]
}

/// What a call does to a lent buffer. "Refused calls leave buffers unaltered; accepted ones leave
/// the bytes past their output." 9 is last, its place "the needed length".
pub fn lend(result: &Result<Vec<u8>, Refusal>, out: &mut [u8]) -> Result<u64, Refusal> {
    let bytes = match result {
        Ok(bytes) => bytes,
        Err(refusal) => {
            let unvoiced = (11..=15).contains(&refusal.number);
            if planted(ROOM_BEFORE_UNVOICED) && unvoiced && out.len() < 64 {
                return Err(Refusal { number: 9, place: 64 });
            }
            if planted(REFUSED_CLEARS) {
                out.fill(0);
            }
            return Err(*refusal);
        }
    };
    let needed = bytes.len();
    let fits = if planted(ROOM_TO_SPARE) { needed < out.len() } else { needed <= out.len() };
    if !fits {
        if planted(SHORT_WRITES) {
            let n = out.len().min(needed);
            out[..n].copy_from_slice(&bytes[..n]);
        }
        let place = if planted(SHORT_PLACE_LENT) { out.len() } else { needed };
        return Err(Refusal { number: 9, place: place as u64 });
    }
    out[..needed].copy_from_slice(bytes);
    if planted(PAST_CLEARED) {
        out[needed..].fill(0);
    }
    Ok(needed as u64)
}

/// The components a pack gives for a held accent and tone, after a held tone or none (0), at the
/// end of a phrase (1) or not (0); None where it gives nothing, or does not load, or does not hold
/// one of them.
pub fn look_pack(pack: &[u8], accent: u8, tone: u8, prev: u8, fin: u8) -> Option<Vec<Component>> {
    look(&Pack::read(pack).ok()?, accent, tone, prev, fin)
}

/// The same from a sheet.
pub fn look_sheet(sheet: &[u8], accent: u8, tone: u8, prev: u8, fin: u8) -> Option<Vec<Component>> {
    look(&Sheet::read(sheet).ok()?, accent, tone, prev, fin)
}

/// Demand 3's words: whether settings, tones in order, each with its tail ("Two packs that differ in a tail value now have
/// different settings"), and accents in any order agree, and every lookup of a held accent and
/// tone, after a held tone or none, at the end of a phrase or not, gives the same components. For two packs that load.
pub fn agree(one: &[u8], two: &[u8]) -> Result<bool, Refusal> {
    let packs = [Pack::read(one)?, Pack::read(two)?];
    let held = |p: &Pack| {
        let tones: Vec<_> = p
            .tones
            .iter()
            .map(|t| {
                let [prior, from, to] = [t.prior, t.from, t.to].map(f32::to_bits);
                (t.number, prior, t.flag, from, to, t.tail.map(f32::to_bits))
            })
            .collect();
        let mut accents: Vec<_> =
            p.accents.iter().map(|a| (a.number, a.tolerances.map(f32::to_bits))).collect();
        accents.sort_unstable();
        (p.temperature.to_bits(), p.threshold.to_bits(), tones, accents)
    };
    if held(&packs[0]) != held(&packs[1]) {
        return Ok(false);
    }
    let tones: Vec<u8> = packs[0].tones.iter().map(|t| t.number).collect();
    let prevs: Vec<u8> = [0].into_iter().chain(tones.iter().copied()).collect();
    let same = |accent: u8, tone: u8, prev: u8, fin: u8| {
        look(&packs[0], accent, tone, prev, fin) == look(&packs[1], accent, tone, prev, fin)
    };
    Ok(packs[0].accents.iter().all(|a| {
        tones.iter().all(|&t| prevs.iter().all(|&p| (0..2).all(|fin| same(a.number, t, p, fin))))
    }))
}

/// Program `station`: "reads u16 pack length, pack, query ... (missing length bytes are 0; a length
/// past the input's end takes what is there) and writes the record, or 52, number, u32 place".
pub fn station(input: &[u8]) -> Vec<u8> {
    let byte = |i: usize| usize::from(input.get(i).copied().unwrap_or(0));
    let rest = input.get(2..).unwrap_or(&[]);
    let (pack, query) = rest.split_at((byte(0) + 256 * byte(1)).min(rest.len()));
    match judge(pack, query) {
        Ok(record) => record,
        Err(refusal) => {
            let mut out = vec![52, refusal.number];
            out.extend_from_slice(&(refusal.place as u32).to_le_bytes());
            out
        }
    }
}

fn look<S: Source>(source: &S, accent: u8, tone: u8, prev: u8, fin: u8) -> Option<Vec<Component>> {
    if prev != 0 {
        source.tone(prev)?;
    }
    let list = source.look(source.accent(accent)?, source.tone(tone)?, prev, fin != 0)?;
    let components = (0..list.count).map(|part| Component {
        owner: list.owner,
        form: list.form,
        label: list.label,
        part: part as u8,
        weight: list.weights[part].to_bits(),
        points: list.points[part].map(f32::to_bits),
    });
    Some(components.collect())
}

impl Source for Pack {
    fn settings(&self) -> (f32, f32) {
        (self.temperature, self.threshold)
    }

    fn tones(&self) -> &[Tone] {
        &self.tones
    }

    fn accent(&self, number: u8) -> Option<usize> {
        self.accents.iter().position(|a| a.number == number)
    }

    fn tolerances(&self, accent: usize) -> [f32; 4] {
        self.accents[accent].tolerances
    }

    fn look(&self, accent: usize, tone: usize, prev: u8, fin: bool) -> Option<List> {
        self.origin(accent, tone, prev, fin).map(|origin| self.list(origin, accent))
    }
}
