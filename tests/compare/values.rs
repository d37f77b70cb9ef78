//! The Hilbert function of coefficient lists and what is read off such lists, against picus.

use crate::bridge;
use crate::random::Random;
use crate::rooms::{told, Fenced, HELD};
use crate::tally::{judge, Column, Tally};
use picus::hilbert::HilbertNum;

const HF_AT: &str = "hf_at";
const READ: &str = "coefficients";

/// The greatest degree that is answered.
const MOST_DEGREE: u64 = 65536;

/// C(m, r), or nothing from 2^127 on. With r at most m/2 the partial ones grow, so one that passes makes the last one pass.
fn binomial(m: u128, r: u128) -> Option<u128> {
    let r = r.min(m - r);
    let mut c: u128 = 1;
    for i in 0..r {
        let (up, down) = (m - i, i + 1);
        let common = gcd(c, down);
        c = (c / common).checked_mul(up / (down / common)).filter(|&c| c < 1 << 127)?;
    }
    Some(c)
}

fn gcd(a: u128, b: u128) -> u128 {
    if b == 0 {
        a
    } else {
        gcd(b, a % b)
    }
}

/// The sum of all |N_k|·C(d−k+n−1, n−1), or nothing from 2^127 on.
fn magnitude(n: usize, coefficients: &[i64], d: usize) -> Option<u128> {
    let mut sum: u128 = 0;
    for (k, &x) in coefficients.iter().enumerate().take(d + 1).filter(|(_, &x)| x != 0) {
        let term = binomial((d - k + n - 1) as u128, (n - 1) as u128)?.checked_mul(x.unsigned_abs() as u128)?;
        sum = sum.checked_add(term).filter(|&sum| sum < 1 << 127)?;
    }
    Some(sum)
}

/// 01's order: 1, 10, 9, 11.
fn number(n: u64, coefficients: &[i64], d: u64, lent: u64) -> u8 {
    if n > 255 {
        1
    } else if d > MOST_DEGREE {
        10
    } else if lent < 4 * (d + 1) {
        9
    } else if n > 0 && magnitude(n as usize, coefficients, d as usize).is_none() {
        11
    } else {
        0
    }
}

pub fn hf_at(tally: &mut Tally, n: u64, coefficients: &[i64], d: u64, lent: u64) {
    let wanted = number(n, coefficients, d, lent);
    let mut sums = Fenced::of(lent as usize, 7u64);
    let mut values = HELD;
    let number = bridge::hf_at(n, coefficients, d, sums.lent(), &mut values);
    let about = (n, coefficients, d, lent, number, values);
    let asked = if wanted == 0 || wanted == 11 { 4 * (d as usize + 1) } else { 0 };
    if wanted != 0 {
        let right = number == wanted && values == HELD && sums.holds(&[], asked);
        return tally.expect(HF_AT, Column::Alone, right, about);
    }
    let value = ((values[1] as u128) << 64 | values[0] as u128) as i128;
    let column = judge(
        &value,
        || HilbertNum::of(coefficients.to_vec()).hf_at(d as u32, n as usize),
        || noted::hilbert::HilbertNum::of(coefficients.to_vec()).hf_at(d as u32, n as usize),
    );
    tally.expect(HF_AT, column, told(number, &values, &values[..2]) && sums.holds(&[], asked), about);
}

/// Coefficients of any size.
pub fn coefficients(random: &mut Random) -> Vec<i64> {
    let bits = random.one_of(&[1, 4, 20, 61, 63]);
    let mut all: Vec<i64> = (0..random.below(10)).map(|_| (random.any() as i64) >> (63 - bits)).collect();
    if !all.is_empty() && random.below(8) == 0 {
        let k = random.below(all.len());
        all[k] = random.one_of(&[i64::MIN, i64::MAX, 1 << 61, -(1 << 61)]);
    }
    all.resize(all.len() + random.below(3), 0);
    all
}

/// One coefficient whose product with its binomial is next to 2^127, alone or with one of the other sign behind it.
pub fn at_the_bound(tally: &mut Tally, random: &mut Random) {
    let (n, d) = (random.from(8, 60), random.from(20, 3000));
    let Some(c) = binomial((d + n - 1) as u128, (n - 1) as u128) else { return };
    let x = (1u128 << 127) / c + random.below(3) as u128 - 1;
    let Ok(x) = i64::try_from(x) else { return };
    let given = random.one_of(&[[x, 0], [-x, 0], [x, -1], [x - 1, -1]]);
    hf_at(tally, n as u64, &given, d as u64, 4 * (d as u64 + 1));
}

pub fn anywhere(tally: &mut Tally, random: &mut Random) {
    let given = coefficients(random);
    let n = if random.below(20) == 0 { random.one_of(&[254, 255, 256, 300]) } else { random.below(13) };
    let d = if random.below(30) == 0 { random.one_of(&[65535, 65536, 65537, 1 << 32]) } else { random.below(41) };
    let asked = 4 * (d.min(MOST_DEGREE as usize) + 1);
    let lent = match random.below(8) {
        0 => random.below(asked),
        1 => asked + random.below(9),
        _ => asked,
    };
    hf_at(tally, n as u64, &given, d as u64, lent as u64);
    read(tally, random, &given);
}

/// `is_zero`, `degree` and `coeff`.
fn read(tally: &mut Tally, random: &mut Random, given: &[i64]) {
    let picus = HilbertNum::of(given.to_vec());
    let mut values = HELD;
    let right = told(bridge::is_zero(given, &mut values), &values, &[picus.is_zero() as u64]);
    tally.expect(READ, Column::Agreed, right, given);
    values = HELD;
    let number = bridge::coeff_degree(given, &mut values);
    let right = match picus.degree() {
        Some(d) => told(number, &values, &[1, d as u64]),
        None => told(number, &values, &[0]),
    };
    tally.expect(READ, Column::Agreed, right, given);
    values = HELD;
    let d = random.below(14) as u32;
    let right = told(bridge::coeff(given, d as u64, &mut values), &values, &[picus.coeff(d) as u64]);
    tally.expect(READ, Column::Agreed, right, (given, d));
}
