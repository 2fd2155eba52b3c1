use crate::cases::*;
use crate::*;

const TOL: [f32; 4] = [1.0, 1.0, 1.0, 1.0];

fn refused(number: u8, place: u64) -> Option<Refusal> {
    Some(Refusal { number, place })
}

fn small_pack() -> Vec<u8> {
    [settings(1, 1.0, 0.25), tone(1, 1.0, &[3.0], None), accent(1, 0, TOL), vec![6]].concat()
}

/// 8 tones with citations and tails, 8 accents, 64 rules of two parts each, all in use: the longest pack.
fn full_pack() -> Vec<u8> {
    let mut out = settings(1, 1.0, 0.5);
    for t in 1..=8u8 {
        out.extend(tone(t, 0.125, &[f32::from(t)], Some((0.25, 0.75))));
        out.extend(tail(7, [-f32::from(t), 0.5]));
    }
    for a in (1..=8u8).rev() {
        out.extend(accent(a, 0, TOL));
        for t in 1..=8u8 {
            out.extend(rule(u16::from(t), t, 0, 2, 3));
            out.extend(part(0.5, &[1.0, f32::from(t)]));
            out.extend(part(0.5, &[2.0]));
        }
    }
    out.push(6);
    out
}

fn f32_of(bytes: &[u8], at: usize) -> f32 {
    crate::bytes::f32_at(bytes, at)
}

// "Bench cases"

#[test]
fn worked_example() {
    let mut ask = Ask::of(steady(8, 110.0));
    ask.register.0 = f32::NAN;
    let mut expected = vec![0x31, 0x01, 0x01, 0x00, 0x24, 0x74, 0xC9];
    expected.extend([0; 54]);
    expected.extend([0x02, 0x40, 0x00]);
    let (pack, query) = (small_pack(), ask.bytes());
    assert_eq!(judge(&pack, &query), Ok(expected.clone()));
    let sheet = write_sheet(&pack).unwrap();
    assert_eq!(judge_sheet(&sheet, &query), Ok(expected.clone()));
    let input = [&(pack.len() as u16).to_le_bytes()[..], &pack, &query].concat();
    assert_eq!(station(&input), expected);
    // A length past the input's end takes what is there; the pack is then cut short.
    assert_eq!(station(&[9, 0, 1]), [52, 2, 0, 0, 0, 0]);
    assert_eq!(station(&[]), [52, 2, 0, 0, 0, 0]);
}

#[test]
fn semitones_and_chao() {
    for (hz, st) in [(55.0, 0.0), (110.0, 12.0), (27.5, -12.0)] {
        assert_eq!(12.0 * log2(hz / 55.0), st);
    }
    // Register 0 to 12: 6 gives 3; 5 to 5: 7 gives 3. Floor 0 width 12 at 12 semitones gives 5.
    let ask = Ask::of(steady(8, 110.0));
    let shape = write_shape(&ask.bytes()).unwrap();
    assert_eq!(shape.len(), 124);
    for k in 0..10 {
        assert_eq!(f32_of(&shape, 9 + 4 * k), 5.0);
        assert_eq!(f32_of(&shape, 49 + 4 * k), 1.0);
    }
    let mut ask = ask;
    ask.register = (6.0, 18.0);
    assert_eq!(f32_of(&write_shape(&ask.bytes()).unwrap(), 9), 3.0);
    ask.register = (10.0, 10.0);
    assert_eq!(f32_of(&write_shape(&ask.bytes()).unwrap(), 9), 3.0);
}

#[test]
fn knots_and_root() {
    assert_eq!(expand_knots(&[2.0]), [2.0; 10]);
    assert_eq!(expand_knots(&[2.0, 2.0]), [2.0; 10]);
    assert_eq!(root(2.0).to_bits(), 0x3FF6_A09E_667F_3BCD);
    assert_eq!(expand_knots(&[1.0, -1.0])[9], -1.0);
}

#[test]
fn logarithm_and_exponential() {
    for k in -1074..1024 {
        let x = if k < -1022 {
            f64::from_bits(1 << (k + 1074))
        } else {
            f64::from_bits(((k + 1023) as u64) << 52)
        };
        assert_eq!(log2(x), f64::from(k));
    }
    // ln of a power of two has no series: k·hi + k·lo, the first product exact.
    let (hi, lo) = (f64::from_bits(0x3FE6_2E42_FEE0_0000), f64::from_bits(0x3DEA_39EF_3579_3C76));
    for k in -1022..1024 {
        let x = f64::from_bits(((k + 1023) as u64) << 52);
        let k = f64::from(k);
        assert_eq!(ln(x), k * hi + k * lo);
        assert_eq!(hi.mul_add(k, -(k * hi)), 0.0);
    }
    // It falls neither where e grows nor where m is halved.
    for k in 1..2046u64 {
        for at in [k << 52, k << 52 | 0x6_A09E_667F_3BCD] {
            for next in at - 3..at + 3 {
                assert!(ln(f64::from_bits(next)) <= ln(f64::from_bits(next + 1)), "{next:016X}");
            }
        }
    }
    // Worked out in fractions; one product has 0x4085_A92D_6D00_5C93.
    assert_eq!(ln(2f64.powi(1000)).to_bits(), 0x4085_A92D_6D00_5C94);
    assert_eq!(ln(1.0).to_bits(), 0);
    assert_eq!(exp(0.0), 1.0);
    assert_eq!(exp(-0.0), 1.0);
    assert_eq!(ln(0.0), f64::NEG_INFINITY);
    assert_eq!(ln(-0.0), f64::NEG_INFINITY);
    assert_eq!(ln(f64::INFINITY), f64::INFINITY);
    assert!(ln(-1.0).is_nan() && log2(f64::NAN).is_nan() && exp(f64::NAN).is_nan());
    assert_eq!(exp(-709.0).to_bits(), 0);
    assert_eq!(exp(709.0), f64::INFINITY);
    assert!(exp(-708.0) > 0.0);
    // Within a step of the library's own values; this guards against slips in the series. With one product
    // exp is hundreds of steps off where n is great.
    let mut r = Rng(1);
    for _ in 0..100_000 {
        let x = f64::from_bits(r.next() >> 1);
        if x.is_finite() && x > 0.0 {
            assert!((ln(x) - x.ln()).abs() <= 2.3e-16 * x.ln().abs().max(1.0));
        }
        let v = r.unit() * 1400.0 - 700.0;
        assert!((exp(v) / v.exp() - 1.0).abs() < 2.3e-16);
    }
}

#[test]
fn picks() {
    assert_eq!(min64(f64::NAN, 1.0), 1.0);
    assert_eq!(max32(1.0, f32::NAN), 1.0);
    assert!(min64(-0.0, 0.0).is_sign_negative() && max64(-0.0, 0.0).is_sign_negative());
    assert!(min32(0.0, -0.0).is_sign_positive());
    assert_eq!(narrow(f64::from_bits(0xFFF8_0000_0000_0001)).to_bits(), 0x7FC0_0000);
}

#[test]
fn variants() {
    let pack = [
        settings(1, 1.0, 0.25),
        tone(1, 0.5, &[3.0], None),
        tone(2, 0.5, &[4.0], None),
        accent(1, 0, TOL),
        vec![6],
    ]
    .concat();
    let mut ask = Ask::of(steady(8, 110.0));
    let with = |ask: &mut Ask, a: f32, b: f32| {
        ask.variants = vec![(2, a), (2, b)];
        judge(&pack, &ask.bytes())
    };
    assert!(with(&mut ask, 0.5, 0.5 + 2f32.powi(-20)).is_ok());
    assert_eq!(with(&mut ask, 0.5, 0.5 + 2f32.powi(-19)).err(), refused(15, 0));
    assert!(with(&mut ask, -0.0, 0.0).is_ok());
    assert_eq!(with(&mut ask, f32::NAN, 0.0).err(), refused(15, 0));
    // 15 comes before 13 for targets; an unknown variant tone is 13 even at weight 0.
    ask.tone = 9;
    assert_eq!(with(&mut ask, -1.0, 0.0).err(), refused(15, 0));
    ask.tone = 1;
    ask.variants = vec![(9, 0.0)];
    assert_eq!(judge(&pack, &ask.bytes()).err(), refused(13, 0));
}

#[test]
fn onset_deltas() {
    // Register 0 to 12: 110 Hz gives 5.
    let deltas = |expected: f32| {
        let pack = [
            settings(1, 1.0, 0.25),
            tone(1, 1.0, &[expected, 5.0], None),
            accent(1, 0, [100.0, 0.5, 100.0, 100.0]),
            vec![6],
        ]
        .concat();
        let record = judge(&pack, &Ask::of(steady(8, 110.0)).bytes()).unwrap();
        (record[50], record[51], f32_of(&record, 52))
    };
    assert_eq!(deltas(4.5), (0, 0, 0.0));
    assert_eq!(deltas(4.25), (1, 2, 0.75));
    assert_eq!(deltas(5.75), (1, 1, 0.75));
}

#[test]
fn equal_tones() {
    let pack = [
        settings(1, 1.0, 0.25),
        tone(7, 0.5, &[5.0], None),
        tone(3, 0.5, &[5.0], None),
        accent(1, 0, TOL),
        vec![6],
    ]
    .concat();
    let mut ask = Ask::of(steady(8, 110.0));
    ask.tone = 3;
    let record = judge(&pack, &ask.bytes()).unwrap();
    assert_eq!(record[3..7], record[7..11]);
    assert_eq!(record[49], 7);
}

#[test]
fn frames_and_length() {
    // n = 7 and 8; 2 and 3 voiced frames.
    let issues = |n: usize| write_shape(&Ask::of(steady(n, 110.0)).bytes()).unwrap()[122];
    assert_eq!((issues(7), issues(8)), (8, 0));
    let mut frames = steady(8, 110.0);
    for f in &mut frames[2..] {
        f.0 = 0;
    }
    assert_eq!(write_shape(&Ask::of(frames.clone()).bytes()).err(), refused(11, 0));
    frames[7].0 = 1;
    assert!(write_shape(&Ask::of(frames).bytes()).is_ok());
    assert_eq!(write_shape(&Ask::of(vec![]).bytes()).err(), refused(11, 0));
}

// "Turned back": one refusal of each number, with its place.

#[test]
fn pack_refusals() {
    let good = small_pack();
    assert_eq!(check_pack(&good), None);
    assert_eq!(check_pack(&[]), refused(2, 0));
    assert_eq!(check_pack(&good[..9]), refused(2, 9));
    assert_eq!(check_pack(&good[..20]), refused(2, 9));
    assert_eq!(check_pack(&good[..84]), refused(2, 84));
    assert_eq!(check_pack(&[&good[..], &[6]].concat()), refused(3, 85));
    assert_eq!(check_pack(&[&good[..65], &[6]].concat()), refused(1, 65));
    let mut nine = settings(1, 1.0, 0.25);
    for t in 1..=9 {
        nine.extend(tone(t, 1.0, &[3.0], None));
    }
    assert_eq!(check_pack(&nine), refused(4, 9 + 8 * 56));
    assert_eq!(check_pack(&nine[..nine.len() - 1]), refused(2, 9 + 8 * 56));
    let with = |tail: &[Vec<u8>]| check_pack(&[&good[..84], &tail.concat(), &[6]].concat());
    assert_eq!(with(&[rule(0, 0, 0, 3, 2)]), refused(5, 84));
    assert_eq!(with(&[rule(0, 2, 0, 0, 2)]), refused(7, 84));
    assert_eq!(with(&[accent(1, 9, TOL)]), refused(6, 84));
    assert_eq!(with(&[accent(2, 2, TOL)]), refused(20, 103));
    assert_eq!(with(&[rule(0, 0, 0, 0, 2)]), refused(1, 91));
    assert_eq!(with(&[rule(0, 0, 0, 0, 2), part(0.5, &[1.0])]), refused(5, 91));
    assert_eq!(with(&[rule(0, 0, 0, 0, 2), part(1.0, &[1.0]), part(9.0, &[])]), refused(4, 137));
    assert_eq!(with(&[rule(0, 0, 0, 0, 3), part(-0.0, &[1.0])]), refused(5, 91));
    assert_eq!(with(&[rule(0, 0, 0, 0, 3), part(0.0, &[-0.0])]), None);
    assert_eq!(with(&[rule(0, 0, 0, 0, 3), part(0.0, &[])]), refused(5, 91));
    let mut slot = part(0.0, &[1.0]);
    slot[45] = 0x80;
    assert_eq!(with(&[rule(0, 0, 0, 0, 3), slot]), refused(5, 91));
    let mut many = part(0.0, &[1.0]);
    many[5] = 11;
    assert_eq!(with(&[rule(0, 0, 0, 0, 3), many]), refused(4, 91));
}

// "Parents named before they appear"

#[test]
fn parent_refusals() {
    let check = |parents: &[u8]| check_pack(&of_parents(parents));
    // Settings, a tone, accents of 19 bytes, a rule and its part if some accent has no parent.
    let end = |parents: &[u8]| {
        (65 + 19 * parents.len() + if parents.contains(&0) { 53 } else { 0 }) as u64
    };
    // Any accent of the file, in chains of up to eight.
    for good in [&[0u8][..], &[2, 0], &[0, 1], &[3, 1, 0], &[2, 0, 2], &[2, 3, 4, 5, 6, 7, 8, 0]] {
        assert_eq!(check(good), None, "{good:?}");
    }
    for endless in [
        &[1u8][..],
        &[2, 1],
        &[2, 3, 1],
        &[0, 2],
        &[2, 2],
        &[2, 3, 2, 0],
        &[0, 3, 4, 2],
        &[2, 3, 4, 5, 6, 7, 8, 1],
        &[2, 3, 4, 5, 6, 7, 8, 8],
    ] {
        assert_eq!(check(endless), refused(20, end(endless)), "{endless:?}");
    }
    // A parent that no accent has comes before a chain that never ends.
    for loose in [&[9u8][..], &[0, 9], &[9, 0], &[9, 2], &[2, 1, 9], &[3, 0, 9]] {
        assert_eq!(check(loose), refused(7, end(loose)), "{loose:?}");
    }
    // At End once its kind is read: 1 and 2 come before, 3 after.
    for (parents, number) in [([2, 1, 0], 20), ([0, 9, 1], 7)] {
        let (pack, at) = (of_parents(&parents), end(&parents));
        let open = &pack[..pack.len() - 1];
        assert_eq!(check_pack(open), refused(2, at));
        assert_eq!(check_pack(&[open, &[2]].concat()), refused(1, at));
        assert_eq!(check_pack(&[open, &rule(1, 0, 0, 0, 2), &[6]].concat()), refused(1, at + 7));
        assert_eq!(check_pack(&[&pack[..], &[6]].concat()), refused(number, at));
        // What stands earlier: a rule's tone, an accent's tolerance, an accent a second time.
        assert_eq!(check_pack(&[open, &rule(1, 7, 0, 0, 2), &[6]].concat()), refused(7, at));
        assert_eq!(check_pack(&[open, &accent(4, 0, [0.0; 4]), &[6]].concat()), refused(5, at));
        assert_eq!(check_pack(&[open, &accent(1, 9, TOL), &[6]].concat()), refused(6, at));
    }
}

#[test]
fn accents_in_any_order() {
    // A child before, between and behind its parents: the nearest one's rule, wherever it stands.
    let one = accent(1, 2, TOL);
    let two = [accent(2, 3, TOL), rule(2, 0, 0, 1, 2), part(1.0, &[2.0])].concat();
    let three = [accent(3, 0, TOL), rule(3, 1, 0, 0, 2), part(1.0, &[4.0])].concat();
    let head = [settings(1, 1.0, 0.25), tone(1, 1.0, &[3.0], None)].concat();
    let query = Ask::of(steady(8, 110.0)).bytes();
    let mut answers = Vec::new();
    for order in [
        [&one, &two, &three],
        [&one, &three, &two],
        [&two, &one, &three],
        [&two, &three, &one],
        [&three, &one, &two],
        [&three, &two, &one],
    ] {
        let pack = [&head[..], order[0], order[1], order[2], &[6]].concat();
        let owner = |accent, fin| look_pack(&pack, accent, 1, 0, fin).unwrap()[0].owner;
        assert_eq!([owner(1, 0), owner(1, 1), owner(2, 1), owner(3, 0)], [2, 3, 3, 3]);
        answers.push((write_sheet(&pack).unwrap(), judge(&pack, &query).unwrap()));
    }
    assert!(answers.iter().all(|a| *a == answers[0]));
}

// "Creaky endings"

/// A tone, and behind its record what is given, then an accent.
fn with_tails(behind: &[Vec<u8>]) -> Vec<u8> {
    let open = [settings(1, 1.0, 0.25), tone(1, 1.0, &[3.0], None)].concat();
    [&open[..], &behind.concat(), &accent(1, 0, TOL), &[6]].concat()
}

#[test]
fn tail_refusals() {
    let check = |behind: &[Vec<u8>]| check_pack(&with_tails(behind));
    let good = tail(7, [-1.5, 0.25]);
    assert_eq!(check(&[good.clone()]), None);
    assert_eq!(check(&[good.clone(), tone(2, 0.5, &[], None), good.clone()]), None);
    assert_eq!(check(&[tone(2, 0.5, &[], None), good.clone()]), None);
    // A second one; straight after the settings, an accent, a rule, a part.
    assert_eq!(check(&[good.clone(), good.clone()]), refused(1, 74));
    assert_eq!(check_pack(&[settings(1, 1.0, 0.25), good.clone()].concat()), refused(1, 9));
    let pack = with_tails(&[]);
    let behind = |records: &[Vec<u8>]| check_pack(&[&pack[..84], &records.concat()].concat());
    assert_eq!(behind(&[good.clone()]), refused(1, 84));
    assert_eq!(behind(&[rule(1, 0, 0, 0, 2), good.clone()]), refused(1, 91));
    let ruled = [rule(1, 0, 0, 0, 2), part(1.0, &[1.0])];
    assert_eq!(behind(&[ruled.concat(), good.clone()]), refused(1, 84 + 53));
    // Straight after a tail: no End, no rule.
    let open = &with_tails(&[good.clone()])[..74];
    assert_eq!(check_pack(&[open, &[6]].concat()), refused(1, 74));
    assert_eq!(check_pack(&[open, &ruled[0]].concat()), refused(1, 74));
    // Cut short: 2 before 5.
    assert_eq!(check_pack(&open[..73]), refused(2, 65));
    assert_eq!(check_pack(&[&open[..65], &tail(7, [f32::NAN; 2])[..8]].concat()), refused(2, 65));
    assert_eq!(check_pack(open), refused(2, 74));
    // Ranges of the first value and of the second.
    let above = f32::from_bits(50f32.to_bits() + 1);
    for fine in [50.0, -50.0, 0.0, -0.0, 1e-45, -1e-45, 1e-40] {
        assert_eq!(check(&[tail(7, [fine, 0.0])]), None, "{fine:?}");
        assert_eq!(check(&[tail(7, [0.0, fine])]), None, "{fine:?}");
    }
    for bad in [above, -above, f32::NAN, f32::INFINITY, f32::NEG_INFINITY, f32::MAX] {
        assert_eq!(check(&[tail(7, [bad, 0.0])]), refused(5, 65), "{bad:?}");
        assert_eq!(check(&[tail(7, [0.0, bad])]), refused(5, 65), "{bad:?}");
    }
    // Eight tones have eight tails; a ninth is 4, behind a tail too.
    let mut eight = settings(1, 1.0, 0.25);
    for t in 1..=8 {
        eight.extend([tone(t, 0.125, &[3.0], None), good.clone()].concat());
    }
    assert_eq!(check_pack(&[&eight[..], &accent(1, 0, TOL), &[6]].concat()), None);
    eight.extend(tone(9, 0.125, &[3.0], None));
    assert_eq!(check_pack(&eight), refused(4, 9 + 8 * 65));
}

#[test]
fn sheet_tail_refusals() {
    let good = write_sheet(&with_tails(&[tail(7, [-1.5, 0.25])])).unwrap();
    assert_eq!(good[24..33], tail(24, [-1.5, 0.25])[..]);
    // Without it, or with more: 1 at the record in its place.
    let with = |behind: &[Vec<u8>]| [&good[..24], &behind.concat(), &good[33..]].concat();
    let own = tail(24, [1.0, 2.0]);
    assert_eq!(check_sheet(&with(&[])), refused(1, 24));
    assert_eq!(check_sheet(&with(&[own.clone()])), None);
    assert_eq!(check_sheet(&with(&[own.clone(), own.clone()])), refused(1, 33));
    assert_eq!(check_sheet(&with(&[tail(7, [1.0, 2.0])])), refused(1, 24));
    let second = sheet_tone(2, 0.5, None, [1.0, 2.0]);
    assert_eq!(check_sheet(&with(&[second[..15].to_vec()])), refused(1, 24));
    assert_eq!(check_sheet(&with(&[own.clone(), second[..15].to_vec()])), refused(1, 48));
    assert_eq!(check_sheet(&[&good[..9], &own, &good[9..]].concat()), refused(1, 9));
    assert_eq!(check_sheet(&[&good[..51], &own, &good[51..]].concat()), refused(1, 51));
    assert_eq!(check_sheet(&good[..24]), refused(2, 24));
    assert_eq!(check_sheet(&good[..32]), refused(2, 24));
    // Ranges.
    let above = f32::from_bits(50f32.to_bits() + 1);
    for fine in [50.0, -50.0, -0.0, 1e-45] {
        assert_eq!(check_sheet(&with(&[tail(24, [fine, 0.0])])), None);
        assert_eq!(check_sheet(&with(&[tail(24, [0.0, fine])])), None);
    }
    for bad in [above, -above, f32::NAN, f32::INFINITY, f32::NEG_INFINITY] {
        assert_eq!(check_sheet(&with(&[tail(24, [bad, 0.0])])), refused(5, 24));
        assert_eq!(check_sheet(&with(&[tail(24, [0.0, bad])])), refused(5, 24));
    }
}

#[test]
fn tails_are_kept() {
    let sheet = |behind: &[Vec<u8>]| write_sheet(&with_tails(behind)).unwrap();
    for values in [[0.0, -0.0], [-0.0, 0.0], [1e-45, -50.0], [50.0, -1e-45]] {
        assert_eq!(sheet(&[tail(7, values)])[24..33], tail(24, values)[..]);
    }
    // None is two zeros; every bit of a value is another setting.
    let none = sheet(&[]);
    assert_eq!(none, sheet(&[tail(7, [0.0; 2])]));
    assert_eq!(agree(&with_tails(&[]), &with_tails(&[tail(7, [0.0; 2])])), Ok(true));
    let value = (-1.5f32).to_bits();
    let of = |bits: u32| with_tails(&[tail(7, [f32::from_bits(bits), -1.5])]);
    for bit in (0..32).filter(|bit| check_pack(&of(value ^ 1 << bit)).is_none()) {
        let (one, two) = (of(value), of(value ^ 1 << bit));
        assert_ne!(write_sheet(&one), write_sheet(&two));
        assert_eq!(agree(&one, &two), Ok(false));
    }
    assert_eq!(agree(&with_tails(&[]), &with_tails(&[tail(7, [-0.0, 0.0])])), Ok(false));
}

/// Two tones of one curve, the shape on it, with these tails, of 0.5 each.
fn creaky_pack(tails: [[f32; 2]; 2]) -> Vec<u8> {
    let tone = |n: usize| tone(n as u8 + 1, 0.5, &[5.0], None);
    [
        settings(1, 1.0, 0.25),
        tone(0),
        tail(7, tails[0]),
        tone(1),
        tail(7, tails[1]),
        accent(1, 0, TOL),
        vec![6],
    ]
    .concat()
}

#[test]
fn tails_count() {
    let pack = creaky_pack([[-1.0, 2.0], [-0.5, 3.0]]);
    let sheet = write_sheet(&pack).unwrap();
    let judged = |ask: &Ask| {
        let record = judge(&pack, &ask.bytes()).unwrap();
        assert_eq!(judge_sheet(&sheet, &ask.bytes()).unwrap(), record);
        record
    };
    let mut ask = Ask::of(steady(8, 110.0));
    let likely = |record: &[u8]| [f32_of(record, 3), f32_of(record, 7)];
    // Without the issue they do not count; with it the place in the phrase decides which does.
    assert_eq!(likely(&judged(&ask)), [0.0, 0.0]);
    assert_eq!(judged(&ask)[49], 1);
    ask.issues = CREAK;
    let elsewhere = judged(&ask);
    assert_eq!(likely(&elsewhere), [2.0, 3.0]);
    assert_eq!((elsewhere[49], elsewhere[61]), (2, 1));
    ask.fin = 1;
    assert_eq!(likely(&judged(&ask)), [-1.0, -0.5]);
    // ln(0.5·e^−1 + 0.5·e^−0.5) is what the target's −1 is held against.
    let background = (0.5 * (-1f64).exp() + 0.5 * (-0.5f64).exp()).ln();
    let llr = |record: &[u8]| f64::from(f32_of(record, 35));
    assert!((llr(&judged(&ask)) + 1.0 + background).abs() < 1e-6);
    // Variants: ln of the weighted sum, here the background itself.
    ask.variants = vec![(2, 0.5)];
    assert!(llr(&judged(&ask)).abs() < 1e-6);
    // Neither distance nor component nor deltas see them.
    let plain = judge(&creaky_pack([[0.0; 2]; 2]), &ask.bytes()).unwrap();
    assert_eq!(judged(&ask)[39..49], plain[39..49]);
}

const CREAK: u16 = 1 << 9;

#[test]
fn tails_are_clamped() {
    // A curve so far off, and widths so small, that the score is the lower bound.
    let far = |value: f32| {
        let pack = [
            settings(1, 1.0, 0.25),
            tone(1, 1.0, &[100.0], None),
            tail(7, [value, 0.0]),
            accent(1, 0, [0.001; 4]),
            vec![6],
        ]
        .concat();
        let mut ask = Ask::of(steady(8, 110.0));
        (ask.issues, ask.fin) = (CREAK, 1);
        f32_of(&judge(&pack, &ask.bytes()).unwrap(), 3)
    };
    assert_eq!([far(0.0), far(-0.0), far(-50.0)], [-1e6; 3]);
    assert_eq!(far(50.0), -999_950.0);
    // A temperature so small that it is the upper one.
    let near = |value: f32| {
        let pack = [
            settings(1, 1e-9, 0.25),
            tone(1, 1.0, &[5.0], None),
            tail(7, [value, 0.0]),
            accent(1, 0, [0.5; 4]),
            vec![6],
        ]
        .concat();
        let mut ask = Ask::of(steady(8, 110.0));
        (ask.issues, ask.fin) = (CREAK, 1);
        f32_of(&judge(&pack, &ask.bytes()).unwrap(), 3)
    };
    assert_eq!([near(0.0), near(50.0), near(-50.0)], [1e6, 1e6, 999_950.0]);
}

#[test]
fn tails_of_weights_of_zero() {
    // ln of ±0 is −infinity, and adds nothing.
    let mut ask = Ask::of(steady(8, 110.0));
    (ask.register.1, ask.issues) = (24.0, CREAK);
    let llr = |pack: &[u8], ask: &Ask| f32_of(&judge(pack, &ask.bytes()).unwrap(), 35).to_bits();
    for weight in [0.0, -0.0, 1.0] {
        ask.variants = vec![(1, weight)];
        assert_eq!(llr(&small_pack(), &ask), 0, "{weight:?}");
    }
    // ln of the weights' sum, 1 − 0.1 + 0.1 in f32, is not 0: without any kind 7 too.
    ask.variants = vec![(1, 0.1)];
    for behind in [vec![], vec![tail(7, [0.0; 2])], vec![tail(7, [-0.0; 2])]] {
        assert_eq!(llr(&with_tails(&behind), &ask), 0xB340_0000);
    }
    ask.issues = 0;
    assert_eq!(llr(&small_pack(), &ask), 0xB2C0_0000);
    // A variant of weight ±0 with a tail, and a main tone of weight 0.
    let mut ask = Ask::of(steady(8, 110.0));
    (ask.issues, ask.fin) = (CREAK, 1);
    let pack = creaky_pack([[-1.0, 0.0], [1.0, 0.0]]);
    let of = |ask: &Ask| f32_of(&judge(&pack, &ask.bytes()).unwrap(), 35);
    let alone = of(&ask);
    for weight in [0.0, -0.0] {
        ask.variants = vec![(2, weight)];
        assert_eq!(of(&ask), alone, "{weight:?}");
    }
    ask.variants = vec![(2, 1.0)];
    assert!((of(&ask) - alone - 2.0).abs() < 1e-6);
}

#[test]
fn unusable_without_tail() {
    let mut ask = Ask::of(steady(8, 110.0));
    (ask.register.0, ask.issues) = (f32::NEG_INFINITY, CREAK);
    let record = judge(&creaky_pack([[50.0; 2]; 2]), &ask.bytes()).unwrap();
    assert_eq!((f32_of(&record, 3), f32_of(&record, 7), record[61]), (-1e6, -1e6, 2));
}

// "A register for a new speaker"

/// The query, cold.
fn cold(mut ask: Ask) -> Ask {
    ask.cold = true;
    ask
}

#[test]
fn cold_refusals() {
    let good = cold(Ask::of(steady(3, 110.0))).bytes();
    assert_eq!((good.len(), good[46]), (77, 55));
    assert_eq!(check_query(&good), None);
    // Where a frame is due it is 1, behind the last frame surplus.
    let with = |at: usize| check_query(&[&good[..at], &[55], &good[at..]].concat());
    assert_eq!(with(0), refused(1, 0));
    assert_eq!([with(46), with(47)], [refused(1, 47); 2]);
    assert_eq!([with(57), with(67), with(77)], [refused(1, 57), refused(1, 67), refused(3, 77)]);
    let plain = Ask::of(steady(3, 110.0)).bytes();
    assert_eq!(check_query(&[&plain[..56], &[55], &plain[56..]].concat()), refused(1, 56));
    assert_eq!(check_query(&[&plain[..], &[55]].concat()), refused(3, 76));
    // No other kind is due in its place.
    for kind in [0, 48, 53, 54, 56] {
        let other = [&plain[..46], &[kind], &plain[46..]].concat();
        assert_eq!(check_query(&other), refused(1, 46), "{kind}");
    }
    // Behind it places are a byte further on.
    assert_eq!(check_query(&good[..47]), refused(2, 47));
    assert_eq!(check_query(&good[..46]), refused(2, 46));
    assert_eq!(check_query(&good[..60]), refused(2, 57));
    assert_eq!(check_query(&[&good[..], &[0]].concat()), refused(3, 77));
    let edited = |at: usize, byte: u8| {
        let mut q = good.clone();
        q[at] = byte;
        check_query(&q)
    };
    assert_eq!([edited(57, 51), edited(58, 2)], [refused(1, 57), refused(10, 57)]);
    assert_eq!([edited(4, 2), edited(22, 4), edited(23, 5)], [10, 10, 4].map(|n| refused(n, 0)));
    // Where no frame is counted it is due all the same, once; anything else is surplus.
    let empty = cold(Ask::of(vec![])).bytes();
    assert_eq!(empty.len(), 47);
    assert_eq!(check_query(&empty), None);
    assert_eq!(write_shape(&empty).err(), refused(11, 0));
    for more in [55, 50, 48, 53] {
        assert_eq!(check_query(&[&empty[..], &[more]].concat()), refused(3, 47));
    }
    for more in [50, 48, 53, 54, 0] {
        assert_eq!(check_query(&[&empty[..46], &[more]].concat()), refused(3, 46));
    }
    let most = cold(Ask::of(steady(1024, 110.0))).bytes();
    assert_eq!((most.len(), check_query(&most)), (10_287, None));
    assert_eq!(check_query(&cold(Ask::of(steady(1025, 110.0))).bytes()), refused(4, 0));
}

#[test]
fn cold_registers() {
    let bits = |register: [f32; 3]| register.map(f32::to_bits);
    // "90 / 150 / 250 Hz"
    let fallback = [0x4108_6A2C, 0x418A_F4C0, 0x41D1_B46B];
    assert_eq!(bits(cold_register(&[])), fallback);
    assert_eq!(bits(cold_register(&[f32::NAN, f32::INFINITY, f32::NEG_INFINITY])), fallback);
    // One value; and such as give whole ranks.
    assert_eq!(cold_register(&[12.0]), [10.0, 12.0, 14.0]);
    assert_eq!(cold_register(&[12.0, 0.0]), [0.6 - 2.0, 6.0, 11.4 + 2.0]);
    let rows: Vec<f32> = (0..21).rev().map(|i| i as f32).collect();
    assert_eq!(cold_register(&rows), [-1.0, 10.0, 21.0]);
    let ties = [[0.0; 19].to_vec(), vec![100.0; 2]].concat();
    assert_eq!(cold_register(&ties), [-2.0, 0.0, 102.0]);
    // Numbers below 0 stand before those above, the greater in size first.
    let signs: Vec<f32> = [-3.0, 1.0, -1.0, 3.0, -2.0].iter().flat_map(|&v| [v; 8]).collect();
    assert_eq!(cold_register(&signs), [-5.0, -1.0, 5.0]);
    // Of frames: all that are voiced, and have a pitch.
    let frames = [
        (1, 110.0, 1.0),
        (0, 880.0, 1.0),
        (1, 0.0, 1.0),
        (1, -110.0, 1.0),
        (1, f32::NAN, 1.0),
        (1, f32::INFINITY, 1.0),
        (1, 55.0, 0.0),
    ];
    assert_eq!(register_of(&frame_bytes(&frames)), cold_register(&[12.0, 0.0]));
    assert_eq!(bits(register_of(&frame_bytes(&frames[1..6]))), fallback);
    assert_eq!(bits(register_of(&[])), fallback);
    // The least and the greatest pitch.
    let [floor, ..] = register_of(&frame_bytes(&[(1, 1e-45, 1.0)]));
    let [.., ceil] = register_of(&frame_bytes(&[(1, f32::MAX, 1.0)]));
    assert!((-1860.0..-1859.0).contains(&floor) && (1468.0..1469.0).contains(&ceil));
}

#[test]
fn least_spans() {
    let of = |floor: u32, ceil: u32| {
        at_least_min_span(f32::from_bits(floor), f32::from_bits(ceil)).map(f32::to_bits)
    };
    // One push is needed; none is, for the difference of these rounds to 4.
    assert_eq!(of(0x3FE2_CA03, 0x4085_3CC2), [0x3F77_BD01, 0x409E_F7A2]);
    assert_eq!(of(0xC000_0000, 0x3FFF_FFFE), [0xC000_0000, 0x3FFF_FFFF]);
    // 4 are enough, and more; 0 are widened both ways.
    assert_eq!(at_least_min_span(10.0, 14.0), [10.0, 14.0]);
    assert_eq!(at_least_min_span(-3.0, 14.0), [-3.0, 14.0]);
    assert_eq!(at_least_min_span(5.0, 5.0), [3.0, 7.0]);
    assert_eq!(at_least_min_span(7.0, 3.0), [3.0, 7.0]);
    assert!(at_least_min_span(f32::NAN, 5.0).iter().all(|v| v.is_nan()));
    // For all semitones of one pitch within ±2,000 that are tried, and ends anywhere there.
    let mut r = Rng(6);
    for _ in 0..200_000 {
        let [a, b] = [r.unit(), r.unit()].map(|u| (4000.0 * u - 2000.0) as f32);
        let near = f32::from_bits(a.to_bits() + r.below(4) as u32);
        for [floor, _, ceil] in [cold_register(&[a]), cold_register(&[a, near, a])] {
            assert!(ceil - floor >= 4.0 && floor.is_finite() && ceil.is_finite());
        }
        let [floor, ceil] = at_least_min_span(a, b);
        assert!(ceil - floor >= 4.0);
        let [floor, ceil] = at_least_min_span(a, near);
        assert!(ceil - floor >= 4.0);
    }
}

#[test]
fn cold_shapes() {
    let shape = |ask: &Ask| write_shape(&ask.bytes()).unwrap();
    // One pitch stands in the middle of its register, whatever the query's own.
    let mut ask = cold(Ask::of(steady(8, 110.0)));
    let registers = [0.0, 1e30, f32::NAN, f32::INFINITY, f32::from_bits(0xFFC0_1234)];
    for register in registers.map(|v| (v, -v)) {
        ask.register = register;
        let record = shape(&ask);
        assert!((0..10).all(|k| f32_of(&record, 9 + 4 * k) == 3.0));
        assert_eq!(record[122], 1 << 4);
    }
    // The frames before and behind the span count in the register; 11 is of the span.
    ask.frames = [steady(8, 110.0), steady(8, 55.0)].concat();
    let [floor, _, ceil] = cold_register(&[[12.0; 8], [0.0; 8]].concat());
    assert_eq!([floor, ceil], [-2.0, 14.0]);
    ask.span = (0, 8);
    assert_eq!(f32_of(&shape(&ask), 9), 1.0 + 4.0 * 14.0 / 16.0);
    ask.span = (8, 16);
    assert_eq!(f32_of(&shape(&ask), 9), 1.0 + 4.0 * 2.0 / 16.0);
    ask.span = (14, 16);
    assert_eq!(write_shape(&ask.bytes()).err(), refused(11, 0));
    // The query's own issues stay, with ColdStartRegister and without; so does TooShort.
    ask.span = (0, 7);
    for (own, union) in [(0, 0x18), (1 << 4, 0x18), (0x3FF, 0x3FF), (1, 0x19)] {
        ask.issues = own;
        assert_eq!(crate::bytes::u16_at(&shape(&ask), 122), union);
    }
    // Without kind 55 that issue changes no register.
    ask.cold = false;
    ask.register = (0.0, 12.0);
    (ask.issues, ask.span) = (1 << 4, (0, 8));
    assert_eq!(f32_of(&shape(&ask), 9), 5.0);
}

#[test]
fn cold_judgements() {
    let pack = [
        settings(1, 1.0, 0.25),
        tone(1, 0.5, &[3.0], None),
        tone(2, 0.5, &[5.0], None),
        accent(1, 0, TOL),
        vec![6],
    ]
    .concat();
    let sheet = write_sheet(&pack).unwrap();
    let judged = |ask: &Ask| {
        let record = judge(&pack, &ask.bytes()).unwrap();
        assert_eq!(judge_sheet(&sheet, &ask.bytes()).unwrap(), record);
        record
    };
    let mut ask = cold(Ask::of(steady(8, 110.0)));
    ask.register = (f32::NAN, f32::NAN);
    // The record is that of the register that was measured, with the issue among the query's own.
    let mut warm = Ask::of(steady(8, 110.0));
    (warm.register, warm.issues) = ((10.0, 14.0), 1 << 4);
    assert_eq!(judged(&ask), judged(&warm));
    assert_eq!((judged(&ask)[61], judged(&ask)[62..64] == [0x10, 0]), (1, true));
    // It widens the tolerances: −ln 1.5³ and not 0 of the tone that is met.
    assert_eq!(f32_of(&judged(&ask), 3), (-(1.5f64.powi(3)).ln()) as f32);
    // 12 and what follows are as they were.
    ask.accent = 9;
    assert_eq!(judge(&pack, &ask.bytes()).err(), refused(12, 0));
}

#[test]
fn query_refusals() {
    let ask = Ask::of(steady(3, 110.0));
    let good = ask.bytes();
    assert_eq!(check_query(&good), None);
    assert_eq!(check_query(&[]), refused(2, 0));
    assert_eq!(check_query(&[49]), refused(1, 0));
    assert_eq!(check_query(&good[..45]), refused(2, 0));
    assert_eq!(check_query(&good[..46]), refused(2, 46));
    assert_eq!(check_query(&good[..60]), refused(2, 56));
    assert_eq!(check_query(&[&good[..], &[0]].concat()), refused(3, 76));
    let edited = |at: usize, byte: u8| {
        let mut q = good.clone();
        q[at] = byte;
        check_query(&q)
    };
    assert_eq!(edited(56, 51), refused(1, 56));
    assert_eq!(edited(57, 2), refused(10, 56));
    assert_eq!(edited(4, 2), refused(10, 0));
    assert_eq!(edited(22, 4), refused(10, 0));
    assert_eq!(edited(23, 5), refused(4, 0));
    assert_eq!(edited(28, 0x80), refused(10, 0));
    let most = Ask::of(steady(1024, 110.0)).bytes();
    assert_eq!(check_query(&most), None);
    assert_eq!(check_query(&Ask::of(steady(1025, 110.0)).bytes()), refused(4, 0));
}

#[test]
fn judgement_refusals() {
    let pack = [
        settings(1, 1.0, 0.25),
        tone(1, 0.5, &[3.0], None),
        tone(2, 0.5, &[], None),
        accent(1, 0, TOL),
        rule(1, 2, 1, 0, 2),
        part(1.0, &[1.0]),
        vec![6],
    ]
    .concat();
    let answer = |ask: &Ask| judge(&pack, &ask.bytes()).err();
    let mut ask = Ask::of(steady(8, 110.0));
    ask.prev = 1;
    assert_eq!(answer(&ask), None);
    ask.tone = 0;
    assert_eq!(answer(&ask), refused(13, 0));
    ask.variants = vec![(1, 2.0)];
    assert_eq!(answer(&ask), refused(15, 0));
    ask.prev = 0;
    assert_eq!(answer(&ask), refused(14, 0));
    ask.prev = 3;
    assert_eq!(answer(&ask), refused(13, 0));
    ask.accent = 2;
    assert_eq!(answer(&ask), refused(12, 0));
    ask.span.0 = 6;
    assert_eq!(answer(&ask), refused(11, 0));
    assert_eq!(judge(&pack[..9], &[]).err(), refused(2, 9));
}

#[test]
fn sheet_refusals() {
    let good = write_sheet(&small_pack()).unwrap();
    // 17, 18, 24, 19, two rows, a list of one, end.
    assert_eq!(good.len(), 9 + 15 + 9 + 18 + 2 * 6 + 7 + 45 + 1);
    assert_eq!(check_sheet(&good), None);
    let edited = |edits: &[(usize, u8)]| {
        let mut s = good.clone();
        for &(at, byte) in edits {
            s[at] = byte;
        }
        check_sheet(&s)
    };
    let list_at = 63;
    assert_eq!(good[list_at], 21);
    assert_eq!(edited(&[(list_at, 20)]), refused(1, 63));
    assert_eq!(check_sheet(&good[..115]), refused(2, 115));
    assert_eq!(check_sheet(&[&good[..], &[0]].concat()), refused(3, 116));
    assert_eq!(edited(&[(list_at + 6, 2)]), refused(4, 63));
    assert_eq!(edited(&[(list_at + 6, 2), (list_at + 3, 9)]), refused(4, 63));
    assert_eq!(edited(&[(list_at + 3, 9)]), refused(5, 63));
    assert_eq!(edited(&[(list_at + 6, 0)]), refused(5, 63));
    assert_eq!(edited(&[(list_at + 4, 1)]), refused(5, 63));
    assert_eq!(edited(&[(list_at + 2, 9)]), refused(7, 63));
    assert_eq!(edited(&[(52, 0)]), refused(5, 51));
    assert_eq!(edited(&[(52, 9)]), refused(7, 51));
    assert_eq!(edited(&[(55, 2)]), refused(7, 51));
    assert_eq!(edited(&[(62, 200)]), refused(7, 57));
    assert_eq!(edited(&[(54, 1)]), refused(8, 51));
    assert_eq!(edited(&[(list_at + 1, 2), (55, 2), (56, 2), (61, 2), (62, 2)]), refused(8, 51));
    assert_eq!(edited(&[(55, 0), (56, 0), (61, 0), (62, 0)]), refused(8, 63));
    // 8 before 3, and 7 before both.
    let mut s = good.clone();
    s[54] = 1;
    s.push(0);
    assert_eq!(check_sheet(&s), refused(8, 51));
    s[62] = 7;
    assert_eq!(check_sheet(&s), refused(7, 57));
    // 6: the accent twice.
    let twice = [&good[..51], &good[33..]].concat();
    assert_eq!(check_sheet(&twice), refused(6, 51));
}

#[test]
fn lent_buffers() {
    let answer = judge(&small_pack(), &Ask::of(steady(8, 110.0)).bytes());
    let bytes = answer.clone().unwrap();
    assert_eq!(bytes.len(), 64);
    let mut out = [7u8; 70];
    assert_eq!(lend(&answer, &mut out[..63]), Err(Refusal { number: 9, place: 64 }));
    assert_eq!(out, [7; 70]);
    assert_eq!(lend(&answer, &mut out), Ok(64));
    assert_eq!(out[..64], bytes);
    assert_eq!(out[64..], [7; 6]);
    let no = Err(Refusal { number: 12, place: 0 });
    assert_eq!(lend(&no, &mut []), Err(Refusal { number: 12, place: 0 }));
}

#[test]
fn greatest_sheet() {
    let pack = full_pack();
    assert_eq!(pack.len(), 7_018);
    assert_eq!(check_pack(&pack), None);
    let sheet = write_sheet(&pack).unwrap();
    assert_eq!(sheet.len(), 13_338);
    assert_eq!(check_sheet(&sheet), None);
    // The 129th list and the 193rd component.
    let mut more = sheet[..sheet.len() - 1].to_vec();
    more.extend(list(129, 1, 3, 1, 1));
    assert_eq!(check_sheet(&more), refused(4, 13_337));
    assert_eq!(check_sheet(&more[..more.len() - 1]), refused(2, 13_337));
    let last = sheet.len() - 1 - 2 * 45 - 7;
    assert_eq!(sheet[last], 21);
    let mut more = sheet[..sheet.len() - 1].to_vec();
    more[last + 6] = 3;
    more.extend(component(f32::NAN, [0.0; 10]));
    assert_eq!(check_sheet(&more), refused(4, 13_337));
    more[last + 6] = 2;
    assert_eq!(check_sheet(&more), refused(1, 13_337));
}

#[test]
fn wrong_turns() {
    // The nearest accent's rule wins over a more specific one of its parent; the first of equal
    // rules wins; the tolerances are the graded accent's.
    let pack = [
        settings(1, 1.0, 0.25),
        tone(1, 1.0, &[3.0], None),
        accent(5, 0, [9.0; 4]),
        rule(1, 1, 0, 1, 2),
        part(1.0, &[1.0]),
        accent(1, 5, TOL),
        rule(2, 0, 0, 2, 2),
        part(1.0, &[2.0]),
        rule(3, 1, 0, 0, 2),
        part(1.0, &[4.0]),
        vec![6],
    ]
    .concat();
    let label = |accent, fin| look_pack(&pack, accent, 1, 0, fin).unwrap()[0];
    assert_eq!((label(5, 0).label, label(5, 0).form), (1, 2));
    assert_eq!((label(5, 1).label, label(5, 1).form, label(5, 1).owner), (0, 1, 5));
    assert_eq!((label(1, 0).label, label(1, 0).owner), (3, 1));
    assert_eq!((label(1, 1).label, label(1, 1).owner), (2, 1));
}

// Demand 3 on generated packs.

#[test]
fn pack_and_sheet_agree() {
    let mut r = Rng(2);
    let mut judged = [0; 16];
    for _ in 0..3000 {
        let pack = some_pack(&mut r);
        assert_eq!(check_pack(&pack.bytes), None);
        let sheet = write_sheet(&pack.bytes).unwrap();
        assert!(sheet.len() <= 13_338);
        assert_eq!(check_sheet(&sheet), None);
        for _ in 0..10 {
            let make = if r.one_in(3) { some_cold_query } else { some_query };
            let query = make(&mut r, &pack.tones, &pack.accents).bytes();
            let answer = judge(&pack.bytes, &query);
            assert_eq!(answer, judge_sheet(&sheet, &query));
            judged[answer.map_or_else(|e| e.number, |_| 0) as usize] += 1;
        }
    }
    // Most are answered, and each of 11 to 15 occurs.
    assert!(judged[0] > 10_000 && judged[11..16].iter().all(|&n| n > 100), "{judged:?}");
}

#[test]
fn lookups_agree() {
    let mut r = Rng(3);
    for _ in 0..120 {
        let pack = some_pack(&mut r);
        let sheet = write_sheet(&pack.bytes).unwrap();
        for &a in &pack.accents {
            for &t in &pack.tones {
                for p in std::iter::once(0).chain(pack.tones.iter().copied()) {
                    for fin in 0..2 {
                        assert_eq!(
                            look_pack(&pack.bytes, a, t, p, fin),
                            look_sheet(&sheet, a, t, p, fin)
                        );
                    }
                }
            }
        }
    }
}

#[test]
fn records_are_in_bounds() {
    let mut r = Rng(4);
    for _ in 0..20_000 {
        let pack = some_pack(&mut r);
        let cold = r.one_in(3);
        let make = if cold { some_cold_query } else { some_query };
        let query = make(&mut r, &pack.tones, &pack.accents).bytes();
        if let Ok(record) = judge(&pack.bytes, &query) {
            assert_eq!(record.len(), 64);
            // "A query with kind 55 that is judged is always measured"
            assert!(!cold || record[61] == 1 && record[62] & 1 << 4 != 0);
            for i in 0..9 {
                let ll = f32_of(&record, 3 + 4 * i);
                assert!((-1e6..=1e6).contains(&ll));
            }
        }
    }
}

// Every planted mistake shows in some generated case.

fn generated(seed: u64, count: usize) -> Vec<Case> {
    let mut r = Rng(seed);
    let mut cases = Vec::new();
    for _ in 0..count {
        let pack = some_pack(&mut r);
        let ask = some_query(&mut r, &pack.tones, &pack.accents);
        let query = ask.bytes();
        let sheet = write_sheet(&pack.bytes).unwrap();
        cases.push(Case::Pack(damaged(&mut r, &pack.bytes)));
        cases.push(Case::Sheet(damaged(&mut r, &sheet)));
        let other = some_sheet(&mut r);
        cases.push(Case::Sheet(damaged(&mut r, &other)));
        cases.push(Case::Sheet(other));
        cases.push(Case::Query(damaged(&mut r, &query)));
        if r.one_in(4) {
            let (p, q) = (damaged(&mut r, &pack.bytes), damaged(&mut r, &query));
            cases.push(Case::Judge(p, q));
        }
        cases.push(Case::JudgeSheet(sheet.clone(), query.clone()));
        for _ in 0..4 {
            let query = some_query(&mut r, &pack.tones, &pack.accents).bytes();
            cases.push(Case::Judge(pack.bytes.clone(), query));
        }
        let cold = some_cold_query(&mut r, &pack.tones, &pack.accents).bytes();
        cases.push(Case::Query(damaged(&mut r, &cold)));
        cases.push(Case::Judge(pack.bytes.clone(), cold.clone()));
        cases.push(Case::JudgeSheet(sheet, cold.clone()));
        cases.push(Case::Query(cold));
        cases.push(Case::Register(frame_bytes(&cold_frames(&mut r))));
        let end = (4000.0 * r.unit() - 2000.0) as f32;
        cases.push(Case::Span(end, f32::from_bits(end.to_bits() + r.below(9) as u32)));
        let answer = judge(&pack.bytes, &query);
        let room = r.pick(&[0usize, 10, 63, 64, 65, 130]);
        cases.push(Case::Lend(answer, room));
        cases.push(Case::Query(query));
        cases.push(Case::Pack(pack.bytes));
        cases.push(Case::Number(r.pick(&[1.0, -1.0, 700.0]) * -r.unit()));
        cases.push(Case::Number(f64::from_bits(r.next())));
        cases.push(Case::Number(r.unit() * 1e3));
        cases.push(Case::Number(0.7 + 0.72 * r.unit()));
        cases.push(Case::Number(1.4 + 0.0142 * r.unit()));
        let count = 1 + r.below(10);
        cases.push(Case::Knots((0..count).map(|_| (r.unit() * 200.0 - 100.0) as f32).collect()));
        let m = [0; 12].map(|_| r.pick(&[1.0, -1.0, 2.0, 0.3, 0.7, 0.1]));
        let row = |i: usize| [m[i], m[i + 1], m[i + 2], m[i + 3]];
        cases.push(Case::Grid([row(0), row(4), row(8)]));
    }
    cases
}

/// Numbers, found by search, at which ln or exp shows lo's last digit, the rounding of e·lo or n·lo, or n by division.
const RARE: [u64; 5] = [
    0x4700_0001_3CA5_CC92,
    0xC083_9A62_B5D5_3472,
    0xC084_8E5F_987C_2ADD,
    0xC081_3DF6_7979_E79B,
    0xC02B_0861_A6C0_F69C,
];

/// Cases at the limits and on the borders.
fn chosen() -> Vec<Case> {
    let full = full_pack();
    let sheet = write_sheet(&full).unwrap();
    let mut r = Rng(9);
    let mut cases = vec![
        Case::Query(Ask::of(steady(1024, 110.0)).bytes()),
        Case::Query(Ask::of(steady(1025, 110.0)).bytes()),
        Case::Pair(0.0, -0.0),
        Case::Pair(-0.0, 0.0),
        Case::Pair(1.0, f64::NAN),
        Case::Number(1.4142135623730951),
        Case::Number(f64::from_bits(0x000F_1234_5678_9ABC)),
        Case::Number(-708.0),
        Case::Number(-705.0),
        Case::Number(f64::from_bits(0xFFF8_0000_0000_0001)),
    ];
    cases.extend(RARE.map(|bits| Case::Number(f64::from_bits(bits))));
    for _ in 0..3000 {
        cases.push(Case::Pack(damaged(&mut r, &full)));
        cases.push(Case::Sheet(damaged(&mut r, &sheet)));
    }
    // 64 and 65 rules of one part.
    let mut rules = [settings(1, 1.0, 0.5), tone(1, 0.5, &[1.0], None), accent(1, 0, TOL)].concat();
    for _ in 0..64 {
        rules.extend(rule(1, 1, 0, 0, 2));
        rules.extend(part(1.0, &[1.0]));
    }
    cases.push(Case::Pack([&rules[..], &[6]].concat()));
    rules.extend(rule(1, 1, 0, 0, 2));
    rules.extend(part(1.0, &[1.0]));
    cases.push(Case::Pack([&rules[..], &[6]].concat()));
    // A ninth tone, the 129th list, the 193rd component, and the last two cut.
    let ninth = sheet_tone(9, 0.5, None, [0.0; 2]);
    cases.push(Case::Sheet([&sheet[..9 + 8 * 24], &ninth, &sheet[9 + 8 * 24..]].concat()));
    let open = &sheet[..sheet.len() - 1];
    let mut more = [open, &list(129, 1, 3, 1, 1)].concat();
    cases.push(Case::Sheet(more.clone()));
    more.extend(component(1.0, [0.0; 10]));
    cases.push(Case::Sheet(more));
    let mut more = open.to_vec();
    more[sheet.len() - 1 - 2 * 45 - 1] = 3;
    more.extend(component(1.0, [0.0; 10]));
    cases.push(Case::Sheet(more.clone()));
    more.pop();
    cases.push(Case::Sheet(more));
    // Parents: chains, rings and parents that no accent has, with End, without, and with more behind.
    for parents in [
        &[2u8, 0][..],
        &[0, 1],
        &[2, 3, 4, 5, 6, 7, 8, 0],
        &[1],
        &[0, 2],
        &[2, 1],
        &[2, 1, 0],
        &[0, 3, 2],
        &[2, 3, 1],
        &[2, 3, 4, 5, 6, 7, 8, 1],
        &[9, 0],
        &[0, 9],
        &[9, 2],
        &[2, 1, 9],
    ] {
        let pack = of_parents(parents);
        let open = pack[..pack.len() - 1].to_vec();
        let cut = [&open[..], &rule(1, 0, 0, 0, 2), &[6]].concat();
        let loose = [&open[..], &rule(1, 7, 0, 0, 2), &part(1.0, &[1.0]), &[6]].concat();
        let more = [&pack[..], &[6, 6]].concat();
        cases.extend([[&open[..], &[2]].concat(), open, cut, loose, more, pack].map(Case::Pack));
    }
    // An accent twice; a part without knots; a list that no row names.
    let small = small_pack();
    let with = |tail: &[Vec<u8>]| Case::Pack([&small[..84], &tail.concat(), &[6]].concat());
    cases.push(with(&[accent(1, 9, TOL)]));
    cases.push(with(&[rule(0, 0, 0, 0, 3), part(1.0, &[])]));
    let small_sheet = write_sheet(&small).unwrap();
    let unused = [list(2, 1, 3, 0, 1), component(1.0, [0.0; 10]), vec![23]].concat();
    cases.push(Case::Sheet([&small_sheet[..small_sheet.len() - 1], &unused].concat()));
    // Variants whose sum is 10 f32 steps above 1, which 1e−6 refuses and 1.5e−6 would not.
    let mut ask = Ask::of(steady(8, 110.0));
    ask.variants = vec![(1, 0.5), (1, 0.5 + 10.0 * f32::EPSILON)];
    cases.push(Case::Judge(small_pack(), ask.bytes()));
    // The first issue bit that is none.
    let mut ask = Ask::of(steady(8, 110.0));
    ask.issues = 1 << 10;
    cases.push(Case::Query(ask.bytes()));
    // Six frames, of which two are filled, that show a point's position.
    let frames = [220.0, 220.0, -1.0, 27.5, -1.0, 55.0].map(|hz| (u8::from(hz > 0.0), hz, 1.0));
    let mut ask = Ask::of(frames.to_vec());
    ask.register = (13.0, 17.0);
    cases.push(Case::Query(ask.bytes()));
    // Two accents in the wrong order.
    let two = [&small[..84], &accent(2, 0, TOL), &[6]].concat();
    let mut exchanged = write_sheet(&two).unwrap();
    let (one, other) = exchanged[33..69].split_at_mut(18);
    one.swap_with_slice(other);
    cases.push(Case::Sheet(exchanged));
    // Tails: a log-likelihood of −0 and a tail of 0; sums whose order shows, as they come to next to 0.
    let mut ask = Ask::of(steady(8, 110.0));
    ask.issues = CREAK;
    let least = [
        settings(1, f32::MAX, 0.25),
        tone(1, 1.0, &[5.0], None),
        accent(1, 0, [1.0 + f32::EPSILON, 1.0, 1.0, 1.0]),
        vec![6],
    ]
    .concat();
    cases.push(Case::Judge(least, ask.bytes()));
    let on_the_curve =
        [settings(1, 1.0, 0.25), tone(1, 1.0, &[5.0], None), accent(1, 0, TOL), vec![6]].concat();
    for _ in 0..200 {
        let (one, two) = (r.unit() as f32, r.unit() as f32);
        ask.variants = [one * two, one - one * two].map(|weight| (1, weight)).to_vec();
        cases.push(Case::Judge(on_the_curve.clone(), ask.bytes()));
    }
    cases.extend((0..2000).map(|_| near_zero(&mut r)));
    cases.extend((0..2000).map(|_| through_zero(&mut r)));
    cases.extend(cold_chosen(&mut r));
    cases.push(Case::Pack(full));
    cases.push(Case::Sheet(sheet));
    cases
}

/// Kind 55 in each place of a query of two frames and of none; the longest query; ends that are pushed apart; a floor next to 0,
/// which shows the last bits of the f64s behind it.
fn cold_chosen(r: &mut Rng) -> Vec<Case> {
    let mut cases = Vec::new();
    for n in [0, 2] {
        let mut ask = Ask::of(steady(n, 110.0));
        let plain = ask.bytes();
        ask.cold = true;
        for query in [plain, ask.bytes()] {
            for at in (0..=query.len()).filter(|&at| at == 0 || at >= 46) {
                for more in [&[55][..], &[50], &[55, 55]] {
                    cases.push(Case::Query([&query[..at], more, &query[at..]].concat()));
                }
                cases.push(Case::Query(query[..at].to_vec()));
            }
        }
    }
    let mut ask = cold(Ask::of(steady(1024, 110.0)));
    ask.frames[1023].1 = 220.0;
    ask.frames[300].1 = 55.0;
    cases.push(Case::Query(ask.bytes()));
    cases.push(Case::Span(f32::from_bits(0x3FE2_CA03), f32::from_bits(0x4085_3CC2)));
    cases.push(Case::Register(vec![]));
    cases.push(Case::Register(frame_bytes(&steady(2, 110.0))));
    let next = |hz: f32, steps: usize| f32::from_bits(hz.to_bits() + steps as u32);
    for _ in 0..2000 {
        let low = 55.0 * 2f64.powf(2.0 / 12.0);
        let (i, n) = (1 + r.below(200), 2 + r.below(18));
        let t = 0.05 * (n - 1) as f64;
        let below = f32::from_bits((low as f32).to_bits() - i as u32);
        let above = next(low as f32, (i as f64 * (1.0 - t) / t) as usize + r.below(3));
        let mut frames = steady(n, above);
        frames[0].1 = below;
        cases.push(Case::Register(frame_bytes(&frames)));
    }
    cases
}

/// A judgement whose log-likelihood is near 0, where a sum regrouped shows: the contour's tolerance
/// is chosen so that −½·d² and the logarithm nearly cancel.
fn near_zero(r: &mut Rng) -> Case {
    let mut frames = steady(20 + r.below(60), 147.3);
    for f in &mut frames[3..] {
        f.0 = r.one_in(2) as u8;
    }
    let mut ask = Ask::of(frames);
    ask.register = ((16.5 + 0.4 * r.unit()) as f32, (20.5 + 0.4 * r.unit()) as f32);
    let query = ask.bytes();
    let level = f32_of(&write_shape(&query).unwrap(), 9);
    // Knots far finer than the curve; the ends near it or on it.
    let mut knots: Vec<f32> = (0..10).map(|_| (r.unit() * 0.1) as f32).collect();
    let off = r.pick(&[0.0f32, 0.3]);
    (knots[0], knots[9]) = (level + off * r.unit() as f32, level + off * r.unit() as f32);
    let (onset, offset) = ((0.4 + 0.1 * r.unit()) as f32, (0.4 + 0.1 * r.unit()) as f32);
    let pack = |contour: f32| {
        [
            settings(1, 1.0, 0.25),
            tone(1, 1.0, &knots, None),
            accent(1, 0, [contour, onset, offset, 1.0]),
            vec![6],
        ]
        .concat()
    };
    let score = |contour: f32| f32_of(&judge(&pack(contour), &query).unwrap(), 3);
    let (mut low, mut high) = (0.1f32, 1.5f32);
    for _ in 0..30 {
        let middle = 0.5 * (low + high);
        if score(middle) < 0.0 {
            low = middle;
        } else {
            high = middle;
        }
    }
    Case::Judge(pack(high), query)
}

/// A straight line through Chao 0 at one of the ten points, with holes around it.
fn through_zero(r: &mut Rng) -> Case {
    let last = 9 * (1 + r.below(4));
    let centre = last / 9 * (1 + r.below(8));
    let step = 0.1 + r.unit();
    let mut frames: Vec<(u8, f32, f32)> = (0..=last)
        .map(|i| {
            let st = (i as f64 - centre as f64) * step;
            (u8::from(!r.one_in(3)), (55.0 * 2f64.powf(st / 12.0)) as f32, 1.0)
        })
        .collect();
    frames[0].0 = 1;
    frames[last].0 = 1;
    frames[centre].0 = 0;
    let mut ask = Ask::of(frames);
    ask.register = (1.0, 5.0);
    Case::Query(ask.bytes())
}

/// Planted mistakes are judged by these.
fn all_cases() -> Vec<Case> {
    let mut cases = chosen();
    cases.extend(generated(5, 4000));
    cases
}

#[test]
fn planted_mistakes_show() {
    let cases = all_cases();
    let right: Vec<Vec<u8>> = cases.iter().map(Case::answer).collect();
    let mut unseen = Vec::new();
    for &(n, what) in PLANTED {
        plant(n);
        let seen = cases.iter().zip(&right).any(|(case, right)| case.answer() != *right);
        plant(0);
        if !seen {
            unseen.push((n, what));
        }
    }
    assert!(unseen.is_empty(), "not seen: {unseen:#?}");
    let ascending = PLANTED.windows(2).all(|pair| pair[0].0 < pair[1].0);
    assert!(ascending && PLANTED[0].0 > 0 && PLANTED.len() >= 70);
}

/// How many cases show each mistake, in all and by sort. Long, so only on request.
#[test]
#[ignore]
fn planted_mistakes_counted() {
    let cases = all_cases();
    let right: Vec<Vec<u8>> = cases.iter().map(Case::answer).collect();
    for &(n, what) in PLANTED {
        plant(n);
        let mut counts = [0; 4];
        for (case, right) in cases.iter().zip(&right) {
            if case.answer() != *right {
                counts[case.sort()] += 1;
            }
        }
        plant(0);
        let [bytes, judged, shaped, alone] = counts;
        println!("{n:4} {bytes:6} {judged:6} {shaped:6} {alone:6}  {what}");
    }
}
