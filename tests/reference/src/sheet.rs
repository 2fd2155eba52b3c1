//! Document 01, "Sheet", with change request 2 of document 02: the reader and the writer.

use crate::bytes::*;
use crate::list::{List, Source, Tone};
use crate::pack::Pack;
use crate::plant::*;
use crate::Refusal;

pub struct Accent {
    pub number: u8,
    pub tolerances: [f32; 4],
    at: usize,
}

struct Row {
    accent: u8,
    tone: u8,
    prev: u8,
    /// List when not final, list when final.
    lists: [u8; 2],
    at: usize,
}

struct Numbered {
    number: u8,
    /// Components the list record announces.
    count: usize,
    list: List,
    at: usize,
}

pub struct Sheet {
    pub temperature: f32,
    pub threshold: f32,
    pub tones: Vec<Tone>,
    pub accents: Vec<Accent>,
    rows: Vec<Row>,
    lists: Vec<Numbered>,
    components: usize,
}

fn length_of(kind: u8) -> Option<usize> {
    Some(match kind {
        17 => 9,
        18 => 15,
        19 => 18,
        20 => 6,
        21 => 7,
        22 => 45,
        23 => 1,
        24 => 9,
        _ => return None,
    })
}

impl Sheet {
    pub fn read(bytes: &[u8]) -> Result<Sheet, Refusal> {
        let mut walk = Walk::new(bytes, length_of);
        let mut sheet = Sheet {
            temperature: 0.0,
            threshold: 0.0,
            tones: Vec::with_capacity(8),
            accents: Vec::with_capacity(8),
            rows: Vec::new(),
            lists: Vec::new(),
            components: 0,
        };
        let mut last = 0;
        loop {
            let kind = walk.kind(|kind| sheet.due(last, kind))?;
            walk.room(kind, sheet.crowded(kind))?;
            match kind {
                17 => sheet.read_settings(&walk)?,
                18 => sheet.read_tone(&walk)?,
                19 => sheet.read_accent(&walk)?,
                20 => sheet.read_row(&walk)?,
                21 => sheet.read_list(&walk)?,
                22 => sheet.read_component(&walk)?,
                24 => sheet.read_tail(&walk)?,
                _ => {}
            }
            walk.step(kind);
            last = kind;
            if kind == 23 {
                break;
            }
        }
        // "a sheet's list references (7), then 8, are judged at its end; 3 follows"
        if planted(SURPLUS_BEFORE_ORDER) {
            walk.end()?;
        }
        if planted(ORDER_BEFORE_LOOSE) {
            sheet.ordered()?;
        }
        sheet.references()?;
        sheet.ordered()?;
        walk.end()?;
        Ok(sheet)
    }

    fn rows_due(&self) -> usize {
        self.accents.len() * self.tones.len() * (self.tones.len() + 1)
    }

    /// "Kinds, in this order"; "A row or component too few or too many is 1."
    fn due(&self, last: u8, kind: u8) -> bool {
        match last {
            0 => kind == 17,
            17 => kind == 18,
            // "The sheet gains kind 24 … after each tone"; "one without them gets 1".
            18 => kind == 24 || planted(SHEET_TAIL_MISSING) && matches!(kind, 18 | 19),
            24 => matches!(kind, 18 | 19) || planted(SHEET_TAIL_TWICE) && kind == 24,
            19 => kind == 19 || kind == 20,
            20 if self.rows.len() < self.rows_due() => {
                kind == 20 || planted(ROWS_FEWER) && kind == 21
            }
            20 => kind == 21 || kind == 23,
            21 | 22 => {
                let current = self.lists.last();
                let more = current.is_some_and(|l| l.list.count < l.count);
                if planted(COMPONENTS_FEWER) && kind == 21 {
                    return true;
                }
                if more {
                    kind == 22
                } else {
                    kind == 21 || kind == 23
                }
            }
            _ => false,
        }
    }

    /// "At most 128 lists and 192 components; the record that goes past is 4."
    fn crowded(&self, kind: u8) -> bool {
        match kind {
            18 => self.tones.len() >= if planted(SHEET_TONES_9) { 9 } else { 8 },
            19 => self.accents.len() >= if planted(SHEET_ACCENTS_9) { 9 } else { 8 },
            21 => {
                let most = if planted(LISTS_129) {
                    129
                } else if planted(LISTS_127) {
                    127
                } else {
                    128
                };
                self.lists.len() >= most
            }
            22 => {
                let most = if planted(COMPONENTS_193) {
                    193
                } else if planted(COMPONENTS_191) {
                    191
                } else {
                    192
                };
                self.components >= most
            }
            _ => false,
        }
    }

    fn read_settings(&mut self, walk: &Walk) -> Result<(), Refusal> {
        self.temperature = f32_at(walk.bytes, walk.at + 1);
        self.threshold = f32_at(walk.bytes, walk.at + 5);
        walk.check(5, finite_above_zero(self.temperature) && share(self.threshold))
    }

    fn read_tone(&mut self, walk: &Walk) -> Result<(), Refusal> {
        let (bytes, at) = (walk.bytes, walk.at);
        let number = bytes[at + 1];
        let prior = f32_at(bytes, at + 2);
        walk.check(5, number != 0 && share(prior) && region_in_range(bytes, at + 6))?;
        let new = self.tones.iter().all(|t| t.number != number);
        walk.check(6, new || planted(SHEET_TONE_TWICE))?;
        self.tones.push(Tone {
            number,
            prior,
            flag: bytes[at + 6],
            from: f32_at(bytes, at + 7),
            to: f32_at(bytes, at + 11),
            tail: [0.0; 2],
        });
        Ok(())
    }

    fn read_tail(&mut self, walk: &Walk) -> Result<(), Refusal> {
        let fine = tail_in_range(walk.bytes, walk.at) || planted(SHEET_TAIL_ANY);
        if planted(TAIL_PLACE_TONE) && !fine {
            return refuse(5, walk.at - 15);
        }
        walk.check(5, fine)?;
        if let Some(tone) = self.tones.last_mut() {
            if !planted(SHEET_TAIL_UNREAD) {
                tone.tail = tail_at(walk.bytes, walk.at);
            }
        }
        Ok(())
    }

    fn read_accent(&mut self, walk: &Walk) -> Result<(), Refusal> {
        let number = walk.bytes[walk.at + 1];
        let tolerances: [f32; 4] = f32s_at(walk.bytes, walk.at + 2);
        walk.check(5, number != 0 && tolerances.iter().all(|&t| finite_above_zero(t)))?;
        let new = self.accents.iter().all(|a| a.number != number);
        let ascending = self.accents.last().is_none_or(|a| a.number <= number);
        if planted(ORDER_ON_SIGHT) {
            walk.check(8, ascending)?;
        }
        if planted(ACCENT_TWICE_UNORDERED) {
            walk.check(8, new)?;
        }
        walk.check(6, new)?;
        self.accents.push(Accent { number, tolerances, at: walk.at });
        Ok(())
    }

    fn read_row(&mut self, walk: &Walk) -> Result<(), Refusal> {
        let b = &walk.bytes[walk.at..walk.at + 6];
        let row = Row { accent: b[1], tone: b[2], prev: b[3], lists: [b[4], b[5]], at: walk.at };
        walk.check(5, row.accent != 0 && row.tone != 0 || planted(ROW_ZERO_LOOSE))?;
        if planted(ROW_LIST_RANGE) {
            walk.check(5, row.lists.iter().all(|&n| n <= 128))?;
        }
        let accent = self.accents.iter().any(|a| a.number == row.accent);
        let tone = self.tones.iter().any(|t| t.number == row.tone);
        let prev = row.prev == 0
            || self.tones.iter().any(|t| t.number == row.prev)
            || planted(ROW_PREV_LOOSE);
        if planted(ROW_LOOSE_UNORDERED) {
            walk.check(8, accent && tone && prev)?;
        }
        walk.check(7, accent && tone && prev)?;
        if planted(ROW_ORDER_ON_SIGHT) {
            walk.check(8, self.row_due(self.rows.len(), &row))?;
        }
        self.rows.push(row);
        Ok(())
    }

    fn read_list(&mut self, walk: &Walk) -> Result<(), Refusal> {
        let (bytes, at) = (walk.bytes, walk.at);
        let (number, owner, form) = (bytes[at + 1], bytes[at + 2], bytes[at + 3]);
        let label = u16_at(bytes, at + 4);
        let count = usize::from(bytes[at + 6]);
        // "A list's count above 4, or above 1 unless the form is 3, is 4; count 0 is 5."
        let crowded = count > 4 || count > 1 && form != 3;
        let in_range = (number != 0 || planted(LIST_ZERO))
            && owner != 0
            && (1..=3).contains(&form)
            && (count != 0 || planted(LIST_EMPTY))
            && (form != 1 || label == 0 || planted(CITATION_LABEL));
        if planted(FORM_BEFORE_COUNT) {
            walk.check(5, in_range)?;
        }
        if planted(EMPTY_LIST_CROWDED) {
            walk.check(4, count != 0)?;
        }
        if planted(COUNT_AHEAD) {
            walk.check(4, self.components + count <= 192)?;
        }
        walk.check(4, !crowded)?;
        walk.check(5, in_range)?;
        if planted(LIST_TWICE_DOUBLED) {
            walk.check(6, self.lists.iter().all(|l| l.number != number))?;
        }
        let owned = self.accents.iter().any(|a| a.number == owner);
        walk.check(7, owned || planted(OWNER_LOOSE))?;
        self.lists.push(Numbered { number, count, list: List::empty(owner, form, label), at });
        Ok(())
    }

    fn read_component(&mut self, walk: &Walk) -> Result<(), Refusal> {
        let value = f32_at(walk.bytes, walk.at + 1);
        let points: [f32; 10] = f32s_at(walk.bytes, walk.at + 5);
        let Some(current) = self.lists.last_mut() else {
            return refuse(1, walk.at);
        };
        // "forms 1 and 2 have one component of weight 1"
        let single = current.list.form != 3;
        let most = if planted(POINTS_100) {
            100.0
        } else if planted(POINTS_256) {
            256.0
        } else {
            128.0
        };
        let in_range = weight(value)
            && (!single || value == 1.0 || planted(SHEET_SINGLE_WEIGHT))
            && points.iter().all(|&p| sized(p, most));
        walk.check(5, in_range)?;
        current.list.push(value, points);
        self.components += 1;
        Ok(())
    }

    /// 7 for the first row that names a list number which no list record gives as its own.
    fn references(&self) -> Result<(), Refusal> {
        let mut given = [false; 256];
        given[0] = true;
        for list in &self.lists {
            given[usize::from(list.number)] = true;
        }
        for row in &self.rows {
            for number in row.lists {
                let there = if planted(REFERENCE_BY_COUNT) {
                    usize::from(number) <= self.lists.len()
                } else if planted(REFERENCE_FINAL_ONLY) {
                    given[usize::from(row.lists[1])]
                } else {
                    given[usize::from(number)]
                };
                if !there {
                    return refuse(7, row.at);
                }
            }
        }
        Ok(())
    }

    /// Whether a row is the one due at its position. "Rows run by accent as above, tone in pack
    /// order, prev 0 then tones in pack order."
    fn row_due(&self, position: usize, row: &Row) -> bool {
        let prevs = self.tones.len() + 1;
        let prev = position % prevs;
        let tone = position / prevs % self.tones.len();
        let accent = position / prevs / self.tones.len();
        row.accent == self.accents[accent].number
            && row.tone == self.tones[tone].number
            && row.prev == if prev == 0 { 0 } else { self.tones[prev - 1].number }
    }

    /// 8 at the smallest offset of an accent, row or list at fault. Accents, rows and lists stand
    /// in this order, so the first fault met is the smallest.
    fn ordered(&self) -> Result<(), Refusal> {
        if planted(LISTS_BEFORE_ROWS) {
            self.lists_ordered()?;
        }
        // "19 accent: ... ascending by number"
        for pair in self.accents.windows(2) {
            if pair[1].number < pair[0].number && !planted(ACCENTS_ANY_ORDER) {
                let at = if planted(PLACE_ACCENT_BEFORE) { pair[0].at } else { pair[1].at };
                return refuse(8, at);
            }
        }
        // "a row naming a list above 1 more than the greatest before it"
        let mut greatest = 0u16;
        for (position, row) in self.rows.iter().enumerate() {
            let mut fault = !self.row_due(position, row) && !planted(ROWS_ANY_ORDER);
            let mut lists = row.lists;
            if planted(FINAL_COUNTED_FIRST) {
                lists.reverse();
            }
            let before = greatest;
            for number in lists {
                let most = if planted(ROW_FIRST_NOT_COUNTED) { before } else { greatest };
                fault |= u16::from(number) > most + 1 && !planted(ROW_JUMPS);
                greatest = greatest.max(u16::from(number));
            }
            if fault {
                return refuse(8, row.at);
            }
        }
        self.lists_ordered()
    }

    /// A list's number is its position from 1, it equals no earlier list, and a row names it.
    fn lists_ordered(&self) -> Result<(), Refusal> {
        let mut named = [false; 256];
        for row in &self.rows {
            for number in row.lists {
                named[usize::from(number)] = true;
            }
        }
        for (i, list) in self.lists.iter().enumerate() {
            let placed = usize::from(list.number) == i + 1 || planted(LISTS_ANY_ORDER);
            let new = planted(EQUAL_LISTS_PASS)
                || !self.lists[..i].iter().any(|earlier| earlier.list.same(&list.list));
            let used = named[usize::from(list.number)] || planted(UNUSED_LIST_PASSES);
            if !(placed && new && used) {
                return refuse(8, list.at);
            }
        }
        Ok(())
    }
}

impl Source for Sheet {
    fn settings(&self) -> (f32, f32) {
        (self.temperature, self.threshold)
    }

    fn tones(&self) -> &[Tone] {
        &self.tones
    }

    fn accent(&self, number: u8) -> Option<usize> {
        self.accents.iter().position(|a| a.number == number)
    }

    fn tolerances(&self, accent: usize) -> [f32; 4] {
        self.accents[accent].tolerances
    }

    fn look(&self, accent: usize, tone: usize, prev: u8, fin: bool) -> Option<List> {
        let prev = match prev {
            0 => 0,
            number => self.tone(number)? + 1,
        };
        let row =
            self.rows.get((accent * self.tones.len() + tone) * (self.tones.len() + 1) + prev)?;
        let fin = fin != planted(SHEET_FINAL_SWAPPED);
        let number = row.lists[usize::from(fin)];
        self.lists.iter().find(|l| l.number == number).map(|l| l.list)
    }
}

/// The sheet of a pack.
pub fn write(pack: &Pack) -> Vec<u8> {
    let mut out = Vec::with_capacity(13_338);
    // 17 as Settings
    out.push(17);
    put_f32(&mut out, pack.temperature);
    put_f32(&mut out, pack.threshold);
    // "18 tone, in pack order: number, prior, flag, from, to"; "kind 24 with the same two values after each tone"
    let mut tones: Vec<usize> = (0..pack.tones.len()).collect();
    if planted(SHEET_TONES_SORTED) {
        tones.sort_by_key(|&i| pack.tones[i].number);
    }
    for &i in &tones {
        let tone = &pack.tones[i];
        out.extend_from_slice(&[18, tone.number]);
        put_f32(&mut out, tone.prior);
        out.push(tone.flag);
        put_f32(&mut out, tone.from);
        put_f32(&mut out, tone.to);
        if !planted(SHEET_TAILS_BEHIND) {
            write_tail(tone, &mut out);
        }
    }
    if planted(SHEET_TAILS_BEHIND) {
        for &i in &tones {
            write_tail(&pack.tones[i], &mut out);
        }
    }
    // "19 accent: number, tolerances, ascending by number"
    let mut accents: Vec<usize> = (0..pack.accents.len()).collect();
    if !planted(SHEET_ACCENTS_IN_FILE_ORDER) {
        accents.sort_by_key(|&i| pack.accents[i].number);
    }
    for &i in &accents {
        out.extend_from_slice(&[19, pack.accents[i].number]);
        for tolerance in pack.accents[i].tolerances {
            put_f32(&mut out, tolerance);
        }
    }
    // "20 row: accent, tone, prev, list when not final, list when final (u8, 0 nothing)"
    let mut lists = Numbering::new(pack);
    let mut prevs: Vec<u8> =
        std::iter::once(0).chain(tones.iter().map(|&t| pack.tones[t].number)).collect();
    if planted(SHEET_PREV_NONE_LAST) {
        prevs.rotate_left(1);
    }
    let mut rows: Vec<[u8; 6]> = Vec::with_capacity(accents.len() * tones.len() * prevs.len());
    for &accent in &accents {
        for &tone in &tones {
            for &prev in &prevs {
                let number =
                    |lists: &mut Numbering, fin| lists.number(pack, accent, tone, prev, fin);
                let (open, closed) = if planted(SHEET_FINAL_FIRST) {
                    let closed = number(&mut lists, true);
                    (number(&mut lists, false), closed)
                } else {
                    let open = number(&mut lists, false);
                    (open, number(&mut lists, true))
                };
                let row =
                    if planted(SHEET_COLUMNS_SWAPPED) { [closed, open] } else { [open, closed] };
                rows.push([
                    20,
                    pack.accents[accent].number,
                    pack.tones[tone].number,
                    prev,
                    row[0],
                    row[1],
                ]);
            }
        }
    }
    if planted(SHEET_NUMBERED_BY_LAST_USE) {
        lists.by_last_use(&mut rows);
    }
    for row in &rows {
        out.extend_from_slice(row);
    }
    // "21 list: number u8, owner u8, form u8, label u16, count u8, followed by its 22 components"
    for (i, list) in lists.lists.iter().enumerate() {
        out.extend_from_slice(&[21, (i + 1) as u8, list.owner, list.form]);
        out.extend_from_slice(&list.label.to_le_bytes());
        out.push(list.count as u8);
        for part in 0..list.count {
            out.push(22);
            put_f32(&mut out, list.weights[part]);
            for point in list.points[part] {
                let point = if planted(SHEET_POINT_ZERO_SIGN) { point + 0.0 } else { point };
                put_f32(&mut out, point);
            }
        }
    }
    out.push(23);
    out
}

fn write_tail(tone: &Tone, out: &mut Vec<u8>) {
    let mut values = tone.tail;
    if planted(SHEET_TAIL_LEFT_OUT) && values == [0.0; 2] {
        return;
    }
    if planted(SHEET_TAIL_EXCHANGED) {
        values.reverse();
    }
    out.push(24);
    for value in values {
        let value = if planted(SHEET_TAIL_ZERO_SIGN) { value + 0.0 } else { value };
        let lost = planted(SHEET_TAIL_SUBNORMAL) && value.is_subnormal();
        put_f32(out, if lost { 0.0 } else { value });
    }
}

/// "Lists equal in every bit are one, numbered from 1 by first use along the rows."
struct Numbering {
    lists: Vec<List>,
    /// The number of each origin met, 0 before.
    known: Vec<u8>,
}

impl Numbering {
    fn new(pack: &Pack) -> Numbering {
        Numbering { lists: Vec::new(), known: vec![0; pack.origins()] }
    }

    fn number(&mut self, pack: &Pack, accent: usize, tone: usize, prev: u8, fin: bool) -> u8 {
        let Some(origin) = pack.origin(accent, tone, prev, fin) else {
            return 0;
        };
        let index = pack.origin_index(origin);
        let by_graded = planted(GRADED_OWNER);
        if self.known[index] != 0 && !by_graded {
            return self.known[index];
        }
        let list = pack.list(origin, accent);
        let met = if planted(SHEET_LISTS_NOT_MERGED) {
            None
        } else {
            self.lists.iter().position(|l| l.same(&list))
        };
        let place = met.unwrap_or_else(|| {
            self.lists.push(list);
            self.lists.len() - 1
        });
        self.known[index] = (place + 1) as u8;
        self.known[index]
    }

    /// The planted mistake: numbers follow the order of last uses.
    fn by_last_use(&mut self, rows: &mut [[u8; 6]]) {
        let mut order: Vec<u8> = Vec::new();
        for row in rows.iter().rev() {
            for number in [row[5], row[4]] {
                if number != 0 && !order.contains(&number) {
                    order.push(number);
                }
            }
        }
        order.reverse();
        let place = |n: u8| order.iter().position(|&o| o == n).map_or(0, |i| i as u8 + 1);
        for row in rows {
            row[4] = place(row[4]);
            row[5] = place(row[5]);
        }
        self.lists = order.iter().map(|&n| self.lists[usize::from(n) - 1]).collect();
    }
}
