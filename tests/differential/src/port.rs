//! The port, linked as a static library. Every call has a cfg of its own, which `run` sets where
//! the library has the symbol. A call returns its refusal's number, or 0, and gives the place, or
//! the length, through its last argument; here the two are one answer, number · 2^32 + place.

use crate::case::*;

macro_rules! lent {
    ($($flag:ident $symbol:ident ( $($kind:ident),* );)*) => {
        extern "C" {
            $(#[cfg($flag)] fn $symbol($(_: lent!(@ptr $kind), _: u64),*, place: *mut u64) -> u32;)*
        }
    };
    (@ptr input) => { *const u8 };
    (@ptr room) => { *mut u8 };
}

lent! {
    port_check_pack tonekit_check_pack(input);
    port_check_query tonekit_check_query(input);
    port_check_sheet tonekit_check_sheet(input);
    port_write_shape tonekit_write_shape(input, room);
    port_write_sheet tonekit_write_sheet(input, room);
    port_judge tonekit_judge(input, input, room);
    port_judge_sheet tonekit_judge_sheet(input, input, room);
}

extern "C" {
    #[cfg(port_ln)]
    fn tonekit_ln(bits: u64) -> u64;
    #[cfg(port_log2)]
    fn tonekit_log2(bits: u64) -> u64;
    #[cfg(port_exp)]
    fn tonekit_exp(bits: u64) -> u64;
    #[cfg(port_root)]
    fn tonekit_root(bits: u64) -> u64;
    #[cfg(port_narrow)]
    fn tonekit_narrow(bits: u64) -> u32;
    #[cfg(port_cold_register)]
    fn tonekit_cold_register(
        frames: *const u8,
        n: u64,
        count: u16,
        floor: *mut u32,
        median: *mut u32,
        ceil: *mut u32,
    );
}

/// Whether the port has this call.
pub fn has(call: u8) -> bool {
    match call {
        CHECK_PACK => cfg!(port_check_pack),
        CHECK_QUERY => cfg!(port_check_query),
        CHECK_SHEET => cfg!(port_check_sheet),
        WRITE_SHAPE => cfg!(port_write_shape),
        WRITE_SHEET => cfg!(port_write_sheet),
        JUDGE => cfg!(port_judge),
        JUDGE_SHEET => cfg!(port_judge_sheet),
        10 => cfg!(port_ln),
        11 => cfg!(port_log2),
        12 => cfg!(port_exp),
        13 => cfg!(port_root),
        14 => cfg!(port_narrow),
        COLD_REGISTER => cfg!(port_cold_register),
        _ => false,
    }
}

/// The port's calls that a program may have, whether or not it has them.
pub const ALL: [u8; 13] = [1, 2, 3, 4, 5, 6, 7, 10, 11, 12, 13, 14, COLD_REGISTER];

/// The port's answer, with `out` lent; a check is lent nothing.
#[allow(unused_variables, unused_unsafe)]
pub fn ask(call: u8, a: &[u8], b: &[u8], out: &mut [u8]) -> u64 {
    let (pa, na) = (a.as_ptr(), a.len() as u64);
    let (pb, nb) = (b.as_ptr(), b.len() as u64);
    let (po, no) = (out.as_mut_ptr(), out.len() as u64);
    let mut place = u64::MAX;
    let at = &mut place as *mut u64;
    let number: u32 = unsafe {
        match call {
            #[cfg(port_check_pack)]
            CHECK_PACK => tonekit_check_pack(pa, na, at),
            #[cfg(port_check_query)]
            CHECK_QUERY => tonekit_check_query(pa, na, at),
            #[cfg(port_check_sheet)]
            CHECK_SHEET => tonekit_check_sheet(pa, na, at),
            #[cfg(port_write_shape)]
            WRITE_SHAPE => tonekit_write_shape(pa, na, po, no, at),
            #[cfg(port_write_sheet)]
            WRITE_SHEET => tonekit_write_sheet(pa, na, po, no, at),
            #[cfg(port_judge)]
            JUDGE => tonekit_judge(pa, na, pb, nb, po, no, at),
            #[cfg(port_judge_sheet)]
            JUDGE_SHEET => tonekit_judge_sheet(pa, na, pb, nb, po, no, at),
            _ => unreachable!("a call that the port has"),
        }
    };
    u64::from(number) << 32 | place
}

/// The port's single function on one f64's bits.
#[allow(unused_variables, unused_unsafe)]
pub fn single(call: u8, bits: u64) -> u64 {
    unsafe {
        match call {
            #[cfg(port_ln)]
            10 => tonekit_ln(bits),
            #[cfg(port_log2)]
            11 => tonekit_log2(bits),
            #[cfg(port_exp)]
            12 => tonekit_exp(bits),
            #[cfg(port_root)]
            13 => tonekit_root(bits),
            #[cfg(port_narrow)]
            14 => u64::from(tonekit_narrow(bits)),
            _ => unreachable!("a function that the port has"),
        }
    }
}

/// The port's register of frames: floor, median and ceiling.
#[allow(unused_variables, unused_mut, unused_unsafe)]
pub fn register(frames: &[u8]) -> [f32; 3] {
    let mut told = [u32::MAX; 3];
    #[cfg(port_cold_register)]
    {
        let [floor, median, ceil] = &mut told;
        let count = (frames.len() / 10) as u16;
        unsafe {
            tonekit_cold_register(
                frames.as_ptr(),
                frames.len() as u64,
                count,
                floor,
                median,
                ceil,
            )
        };
    }
    told.map(f32::from_bits)
}
