//! judge PACK QUERY: judges the query in one file against the pack in the other, and prints what was heard.

extern "C" {
    fn tonekit_judge(
        pack: *const u8,
        pack_length: u64,
        query: *const u8,
        query_length: u64,
        out: *mut u8,
        out_length: u64,
        written: *mut u64,
    ) -> u32;
}

/// The record of a judgement, or the refusal's number and place.
fn judge(pack: &[u8], query: &[u8]) -> Result<[u8; 64], (u32, u64)> {
    let mut out = [0; 64];
    let mut place = 0;
    // The slices are live and their lengths are right.
    let refusal = unsafe {
        tonekit_judge(
            pack.as_ptr(),
            pack.len() as u64,
            query.as_ptr(),
            query.len() as u64,
            out.as_mut_ptr(),
            64,
            &mut place,
        )
    };
    if refusal == 0 { Ok(out) } else { Err((refusal, place)) }
}

fn main() {
    let names: Vec<String> = std::env::args().skip(1).collect();
    let [pack, query] = &names[..] else { panic!("judge PACK QUERY") };
    let read = |name: &String| std::fs::read(name).expect("a file");
    match judge(&read(pack), &read(query)) {
        Ok(r) => {
            let f32_at = |i: usize| f32::from_le_bytes(r[i..i + 4].try_into().expect("four bytes"));
            println!("expected tone {}, heard {}, log-likelihood ratio {:.4}", r[1], r[49], f32_at(35));
            if r[39] == 1 {
                let label = u16::from_le_bytes([r[46], r[47]]);
                let distance = f32_at(40);
                println!("best curve: accent {}, form {}, label {label}, part {}, distance {distance:.4}", r[44], r[45], r[48]);
            }
            for i in 0..usize::from(r[50]) {
                println!("delta of kind {} by {:.4}", r[51 + 5 * i], f32_at(52 + 5 * i));
            }
        }
        Err((number, place)) => {
            println!("refused: {number} at {place}");
            std::process::exit(1);
        }
    }
}
