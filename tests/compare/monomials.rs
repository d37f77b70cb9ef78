//! Monomials two by two, and their masks, against picus.

use crate::bridge;
use crate::random::Random;
use crate::rooms::{told, Fenced, HELD};
use crate::tally::{said, Column, Tally};
use picus::divmask::{DivMask, DivMaskScheme};
use picus::monomial::{Monomial, MonomialOrder};

const ARITHMETIC: &str = "monomials";
const MASK: &str = "mask";

fn value(tally: &mut Tally, call: impl FnOnce(&mut [u64; 4]) -> u8, wanted: u64, about: (&str, &[u16], &[u16])) {
    let mut values = HELD;
    let number = call(&mut values);
    tally.expect(ARITHMETIC, Column::Agreed, told(number, &values, &[wanted]), (about, number, values));
}

/// An output where picus has one, else the refusal meant.
fn output(
    tally: &mut Tally,
    call: impl FnOnce(&mut [u16]) -> u8,
    n: usize,
    wanted: Option<Monomial>,
    refusal: u8,
    about: (&str, &[u16], &[u16]),
) {
    let mut out = Fenced::of(n, 0xeeee);
    let number = call(out.lent());
    match wanted {
        Some(monomial) => {
            let right = number == 0 && out.holds(monomial.exponents(), n);
            tally.expect(ARITHMETIC, Column::Agreed, right, (about, number, out.now()));
        }
        None => tally.expect(ARITHMETIC, Column::Refused, number == refusal && out.holds(&[], 0), (about, number)),
    }
}

/// All calls on two monomials of one width.
pub fn pair(tally: &mut Tally, random: &mut Random, a: &[u16], b: &[u16]) {
    let (x, y) = (Monomial::from_exponents(a.to_vec()), Monomial::from_exponents(b.to_vec()));
    let (n, v) = (a.len(), random.below(a.len() + 1));
    let order = |order| x.cmp_with_order(&y, order) as i8 as i64 + 1;
    value(tally, |w| bridge::degree(a, w), x.total_degree() as u64, ("degree", a, b));
    value(tally, |w| bridge::divides(a, b, w), x.divides(&y) as u64, ("divides", a, b));
    value(tally, |w| bridge::coprime(a, b, w), x.is_coprime(&y) as u64, ("coprime", a, b));
    value(tally, |w| bridge::lex(a, b, w), order(MonomialOrder::Lex) as u64, ("lex", a, b));
    value(tally, |w| bridge::degrevlex(a, b, w), order(MonomialOrder::DegRevLex) as u64, ("degrevlex", a, b));
    output(tally, |o| bridge::lcm(a, b, o), n, Some(x.lcm(&y)), 0, ("lcm", a, b));
    output(tally, |o| bridge::gcd(a, b, o), n, Some(x.gcd(&y)), 0, ("gcd", a, b));
    output(tally, |o| bridge::product(a, b, o), n, said(|| x.mul(&y)), 5, ("product", a, b));
    output(tally, |o| bridge::quotient(a, b, o), n, y.divides(&x).then(|| x.div(&y)), 6, ("quotient", a, b));
    let power = said(|| Monomial::single_var(n, v, 3));
    output(tally, |o| bridge::power(n as u64, v as u64, 3, o), n, power, 4, ("power", a, b));
    if v < n {
        value(tally, |w| bridge::exponent(a, v as u64, w), x.exponent(v) as u64, ("exponent", a, b));
    }
    masks(tally, random, &x, &y);
}

fn mask(tally: &mut Tally, scheme: &DivMaskScheme, most: u16, exponents: &[u16]) -> DivMask {
    let wanted = scheme.compute_from_slice(exponents);
    let mut values = HELD;
    let number = bridge::mask(scheme.n_vars as u64, most, exponents, &mut values);
    let right = told(number, &values, &[wanted.0 as u64, (wanted.0 >> 64) as u64]);
    tally.expect(MASK, Column::Agreed, right, (scheme.n_vars, most, exponents, number, values));
    wanted
}

/// Both masks; where one monomial divides the other, they are consistent.
fn masks(tally: &mut Tally, random: &mut Random, x: &Monomial, y: &Monomial) {
    let greatest = x.exponents().iter().chain(y.exponents()).copied().max().unwrap_or(0);
    let most = random.one_of(&[0, 1, 4, 128, 65535, greatest, greatest]);
    let scheme = DivMaskScheme::build(x.n_vars(), most);
    let (a, b) = (mask(tally, &scheme, most, x.exponents()), mask(tally, &scheme, most, y.exponents()));
    tally.expect(MASK, Column::Agreed, !x.divides(y) || a.divides_consistent_with(b), (x, y, most));
}

/// A mask of a slice of any length.
pub fn any_mask(tally: &mut Tally, random: &mut Random) {
    let (n, most) = (random.below(256), random.one_of(&[0, 1, 2, 4, 5, 30, 127, 128, 129, 1000, 65535]));
    let length = random.one_of(&[n, n, n.saturating_sub(1), n + 3, 0]);
    let exponents: Vec<u16> = (0..length).map(|_| random.below((most as usize + 4).min(65536)) as u16).collect();
    mask(tally, &DivMaskScheme::build(n, most), most, &exponents);
}
