//! The calls of tests/bridge/bridge.h, over slices. Each answers the call's number; `values` is written where that is 0.

pub type Values = [u64; 4];

mod c {
    extern "C" {
        pub fn pt_degree(a: *const u16, a_len: usize, values: *mut u64) -> u8;
        pub fn pt_exponent(a: *const u16, a_len: usize, v: u64, values: *mut u64) -> u8;
        pub fn pt_power(n: u64, v: u64, x: u16, out: *mut u16, out_len: usize) -> u8;
        pub fn pt_product(a: *const u16, a_len: usize, b: *const u16, b_len: usize, out: *mut u16, out_len: usize) -> u8;
        pub fn pt_quotient(a: *const u16, a_len: usize, b: *const u16, b_len: usize, out: *mut u16, out_len: usize) -> u8;
        pub fn pt_lcm(a: *const u16, a_len: usize, b: *const u16, b_len: usize, out: *mut u16, out_len: usize) -> u8;
        pub fn pt_gcd(a: *const u16, a_len: usize, b: *const u16, b_len: usize, out: *mut u16, out_len: usize) -> u8;
        pub fn pt_divides(a: *const u16, a_len: usize, b: *const u16, b_len: usize, values: *mut u64) -> u8;
        pub fn pt_coprime(a: *const u16, a_len: usize, b: *const u16, b_len: usize, values: *mut u64) -> u8;
        pub fn pt_lex(a: *const u16, a_len: usize, b: *const u16, b_len: usize, values: *mut u64) -> u8;
        pub fn pt_degrevlex(a: *const u16, a_len: usize, b: *const u16, b_len: usize, values: *mut u64) -> u8;
        pub fn pt_mask(n: u64, max_deg: u16, exps: *const u16, exps_len: usize, values: *mut u64) -> u8;
        pub fn pt_numerator(
            n: u64, s: u64, cells: *const u16, cells_len: usize, room: *mut u16, room_len: usize, first: *mut i64, first_len: usize,
            second: *mut i64, second_len: usize, values: *mut u64,
        ) -> u8;
        pub fn pt_update(
            n: u64, g: *const i64, g_len: usize, s0: u64, existing: *const u16, existing_len: usize, s1: u64, added: *const u16,
            added_len: usize, room: *mut u16, room_len: usize, first: *mut i64, first_len: usize, second: *mut i64, second_len: usize,
            values: *mut u64,
        ) -> u8;
        pub fn pt_hf_at(n: u64, coeffs: *const i64, coeffs_len: usize, d: u64, sums: *mut u64, sums_len: usize, values: *mut u64) -> u8;
        pub fn pt_dimension(
            n: u64, s: u64, cells: *const u16, cells_len: usize, room: *mut u16, room_len: usize, first: *mut i64, first_len: usize,
            second: *mut i64, second_len: usize, sums: *mut u64, sums_len: usize, values: *mut u64,
        ) -> u8;
        pub fn pt_is_zero(coeffs: *const i64, coeffs_len: usize, values: *mut u64) -> u8;
        pub fn pt_coeff_degree(coeffs: *const i64, coeffs_len: usize, values: *mut u64) -> u8;
        pub fn pt_coeff(coeffs: *const i64, coeffs_len: usize, d: u64, values: *mut u64) -> u8;
        pub fn pt_write_record(
            n: u64, s: u64, cells: *const u16, cells_len: usize, out: *mut u8, out_len: usize, values: *mut u64,
        ) -> u8;
        pub fn pt_check_place(rec: *const u8, rec_len: usize, k: u64) -> u8;
        pub fn pt_place(rec: *const u8, rec_len: usize, k: u64, out: *mut u8, out_len: usize, values: *mut u64) -> u8;
        pub fn pt_copy_record(rec: *const u8, rec_len: usize, cells: *mut u16, cells_len: usize, values: *mut u64) -> u8;
        pub fn purlthicket_dim(rec: *const u8, rec_len: usize, out: *mut u8, out_len: usize) -> u8;
    }
}

/// The rooms lent to a call on lists.
pub struct Lent<'a> {
    pub room: &'a mut [u16],
    pub first: &'a mut [i64],
    pub second: &'a mut [i64],
    pub sums: &'a mut [u64],
}

pub fn numerator(n: u64, s: u64, cells: &[u16], lent: &mut Lent, values: &mut Values) -> u8 {
    unsafe {
        c::pt_numerator(
            n, s, cells.as_ptr(), cells.len(), lent.room.as_mut_ptr(), lent.room.len(), lent.first.as_mut_ptr(), lent.first.len(),
            lent.second.as_mut_ptr(), lent.second.len(), values.as_mut_ptr(),
        )
    }
}

pub fn update(n: u64, g: &[i64], s0: u64, existing: &[u16], s1: u64, added: &[u16], lent: &mut Lent, values: &mut Values) -> u8 {
    unsafe {
        c::pt_update(
            n, g.as_ptr(), g.len(), s0, existing.as_ptr(), existing.len(), s1, added.as_ptr(), added.len(), lent.room.as_mut_ptr(),
            lent.room.len(), lent.first.as_mut_ptr(), lent.first.len(), lent.second.as_mut_ptr(), lent.second.len(),
            values.as_mut_ptr(),
        )
    }
}

pub fn dimension(n: u64, s: u64, cells: &[u16], lent: &mut Lent, values: &mut Values) -> u8 {
    unsafe {
        c::pt_dimension(
            n, s, cells.as_ptr(), cells.len(), lent.room.as_mut_ptr(), lent.room.len(), lent.first.as_mut_ptr(), lent.first.len(),
            lent.second.as_mut_ptr(), lent.second.len(), lent.sums.as_mut_ptr(), lent.sums.len(), values.as_mut_ptr(),
        )
    }
}

pub fn hf_at(n: u64, coeffs: &[i64], d: u64, sums: &mut [u64], values: &mut Values) -> u8 {
    unsafe { c::pt_hf_at(n, coeffs.as_ptr(), coeffs.len(), d, sums.as_mut_ptr(), sums.len(), values.as_mut_ptr()) }
}

pub fn is_zero(coeffs: &[i64], values: &mut Values) -> u8 {
    unsafe { c::pt_is_zero(coeffs.as_ptr(), coeffs.len(), values.as_mut_ptr()) }
}

pub fn coeff_degree(coeffs: &[i64], values: &mut Values) -> u8 {
    unsafe { c::pt_coeff_degree(coeffs.as_ptr(), coeffs.len(), values.as_mut_ptr()) }
}

pub fn coeff(coeffs: &[i64], d: u64, values: &mut Values) -> u8 {
    unsafe { c::pt_coeff(coeffs.as_ptr(), coeffs.len(), d, values.as_mut_ptr()) }
}

pub fn degree(a: &[u16], values: &mut Values) -> u8 {
    unsafe { c::pt_degree(a.as_ptr(), a.len(), values.as_mut_ptr()) }
}

pub fn exponent(a: &[u16], v: u64, values: &mut Values) -> u8 {
    unsafe { c::pt_exponent(a.as_ptr(), a.len(), v, values.as_mut_ptr()) }
}

pub fn power(n: u64, v: u64, x: u16, out: &mut [u16]) -> u8 {
    unsafe { c::pt_power(n, v, x, out.as_mut_ptr(), out.len()) }
}

pub fn mask(n: u64, max_deg: u16, exps: &[u16], values: &mut Values) -> u8 {
    unsafe { c::pt_mask(n, max_deg, exps.as_ptr(), exps.len(), values.as_mut_ptr()) }
}

macro_rules! written {
    ($name:ident, $call:ident) => {
        pub fn $name(a: &[u16], b: &[u16], out: &mut [u16]) -> u8 {
            unsafe { c::$call(a.as_ptr(), a.len(), b.as_ptr(), b.len(), out.as_mut_ptr(), out.len()) }
        }
    };
}

written!(product, pt_product);
written!(quotient, pt_quotient);
written!(lcm, pt_lcm);
written!(gcd, pt_gcd);

macro_rules! told {
    ($name:ident, $call:ident) => {
        pub fn $name(a: &[u16], b: &[u16], values: &mut Values) -> u8 {
            unsafe { c::$call(a.as_ptr(), a.len(), b.as_ptr(), b.len(), values.as_mut_ptr()) }
        }
    };
}

told!(divides, pt_divides);
told!(coprime, pt_coprime);
told!(lex, pt_lex);
told!(degrevlex, pt_degrevlex);

pub fn write_record(n: u64, s: u64, cells: &[u16], out: &mut [u8], values: &mut Values) -> u8 {
    unsafe { c::pt_write_record(n, s, cells.as_ptr(), cells.len(), out.as_mut_ptr(), out.len(), values.as_mut_ptr()) }
}

pub fn check_place(rec: &[u8], k: u64) -> u8 {
    unsafe { c::pt_check_place(rec.as_ptr(), rec.len(), k) }
}

pub fn place(rec: &[u8], k: u64, out: &mut [u8], values: &mut Values) -> u8 {
    unsafe { c::pt_place(rec.as_ptr(), rec.len(), k, out.as_mut_ptr(), out.len(), values.as_mut_ptr()) }
}

pub fn copy_record(rec: &[u8], cells: &mut [u16], values: &mut Values) -> u8 {
    unsafe { c::pt_copy_record(rec.as_ptr(), rec.len(), cells.as_mut_ptr(), cells.len(), values.as_mut_ptr()) }
}

/// The host call, of the crate `records`.
pub fn host(rec: &[u8], out: &mut [u8]) -> u8 {
    unsafe { c::purlthicket_dim(rec.as_ptr(), rec.len(), out.as_mut_ptr(), out.len()) }
}
