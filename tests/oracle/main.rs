//! Asks the oracle many things in one process. Standard input is a row of requests, each one byte
//! of call, u32 length and the bytes of a first input, u32 length and the bytes of a second.
//! Standard output is a row of answers, each one byte of number (0, or 11 to 15), u32 length and
//! the bytes. Calls: 1 judge (pack, query); 2 shape (query, nothing); 3 look (pack; accent, tone,
//! prev, final), 50 bytes a component; 4 ln, 5 log2, 6 exp, 7 root (f64s, nothing); 8 cold_register
//! (f32s, nothing), floor, median and ceiling as f32s.
//! With the argument `example` it prints document 01's worked example instead.

use std::io::{Read, Write};

fn answer(call: u8, a: &[u8], b: &[u8]) -> Result<Vec<u8>, u8> {
    match call {
        1 => oracle::judge(a, b).map(Vec::from),
        2 => oracle::shape(a).map(Vec::from),
        3 => oracle::look(a, b[0], b[1], b[2], b[3]).map(|found| {
            let mut out = Vec::new();
            for c in found {
                out.extend([c.owner, c.form]);
                out.extend(c.label.to_le_bytes());
                out.push(c.part);
                out.push(0);
                out.extend(c.weight.to_le_bytes());
                for p in c.points {
                    out.extend(p.to_le_bytes());
                }
            }
            out
        }),
        4..=7 => {
            let f = [oracle::ln, oracle::log2, oracle::exp, oracle::root][usize::from(call - 4)];
            let value = |c: &[u8]| f64::from_bits(u64::from_le_bytes(c.try_into().expect("8")));
            let bits = |v: f64| {
                if v.is_nan() {
                    0x7FF8 << 48
                } else {
                    v.to_bits()
                }
            };
            Ok(a.chunks_exact(8)
                .flat_map(|c| bits(f(value(c))).to_le_bytes())
                .collect())
        }
        8 => {
            let semitones: Vec<f32> = a
                .chunks_exact(4)
                .map(|c| f32::from_le_bytes(c.try_into().expect("4")))
                .collect();
            let register = oracle::cold_register(&semitones);
            Ok(register.iter().flat_map(|v| v.to_le_bytes()).collect())
        }
        _ => panic!("no such call: {call}"),
    }
}

/// Tone 1, accent 1 with a citation, eight voiced frames of 110 Hz, floor NaN.
fn example() -> Vec<u8> {
    let f = |v: f32| v.to_le_bytes();
    let mut pack = vec![1];
    pack.extend([f(1.0), f(0.5)].concat());
    pack.extend([2, 1]);
    pack.extend(f(1.0));
    pack.push(1);
    pack.extend(f(3.0));
    pack.extend([0; 36 + 9]);
    pack.extend([3, 1, 0]);
    pack.extend([f(1.0), f(1.0), f(1.0), f(1.0)].concat());
    pack.push(6);
    let mut query = vec![48, 1, 1, 0, 0];
    query.extend([0u32.to_le_bytes(), 8u32.to_le_bytes()].concat());
    query.extend([f(f32::NAN), f(12.0)].concat());
    query.extend([0; 23]);
    query.extend([8, 0]);
    for _ in 0..8 {
        query.extend([50, 1]);
        query.extend([f(110.0), f(1.0)].concat());
    }
    oracle::judge(&pack, &query).expect("a judgement").to_vec()
}

fn main() {
    if std::env::args().nth(1).as_deref() == Some("example") {
        let hex: Vec<String> = example().iter().map(|b| format!("{b:02X}")).collect();
        println!("{}", hex.join(" "));
        return;
    }
    let mut input = Vec::new();
    std::io::stdin()
        .read_to_end(&mut input)
        .expect("standard input");
    let mut rest = &input[..];
    let mut out = Vec::new();
    let mut take = |n: usize| {
        let (head, tail) = rest.split_at(n);
        rest = tail;
        head
    };
    let mut left = input.len();
    while left > 0 {
        let call = take(1)[0];
        let mut part = || {
            let n = u32::from_le_bytes(take(4).try_into().expect("4")) as usize;
            left -= 4 + n;
            take(n)
        };
        let (a, b) = (part(), part());
        left -= 1;
        let (number, bytes) = match answer(call, a, b) {
            Ok(bytes) => (0, bytes),
            Err(number) => (number, Vec::new()),
        };
        out.push(number);
        out.extend((bytes.len() as u32).to_le_bytes());
        out.extend(bytes);
    }
    std::io::stdout().write_all(&out).expect("standard output");
}
