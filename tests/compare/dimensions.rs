//! Dimensions, against picus's.

use crate::bridge;
use crate::list::{Asked, List};
use crate::random::Random;
use crate::rooms::{told, Rooms, HELD};
use crate::tally::{judge, Column, Tally};
use picus::hilbert::quotient_dimension;

const DIMENSION: &str = "dimension";

/// picus's work grows with the square of the top degree.
pub const SLOW_TOP_DEGREE: usize = 3000;

/// The greatest top degree that is answered.
const MOST_TOP_DEGREE: usize = 65536;

/// What 01 says before any room is asked.
pub enum Shape {
    /// A unit, or no variables: the dimension.
    AtOnce(u64),
    /// The number of a refusal.
    Refused(u8),
    /// The top degree.
    Top(usize),
}

fn is_unit(monomial: &[u16]) -> bool {
    monomial.iter().all(|&x| x == 0)
}

/// The least pure power of each variable.
fn least_powers(list: &List) -> Option<Vec<u16>> {
    let power = |k: usize, v: usize| {
        let monomial = list.at(k);
        let pure = monomial[v] > 0 && (0..list.n).all(|u| u == v || monomial[u] == 0);
        pure.then_some(monomial[v])
    };
    (0..list.n).map(|v| (0..list.s).filter_map(|k| power(k, v)).min()).collect()
}

/// Whether the product is 2^127 or more; no factor is 0.
fn passes(powers: &[u16]) -> bool {
    let product = powers.iter().try_fold(1u128, |product, &a| product.checked_mul(a as u128));
    product.is_none_or(|product| product >= 1 << 127)
}

pub fn shape(list: &List) -> Shape {
    if (0..list.s).any(|k| is_unit(list.at(k))) {
        return Shape::AtOnce(0);
    }
    if list.n == 0 {
        return Shape::AtOnce(1);
    }
    let Some(powers) = least_powers(list) else { return Shape::Refused(13) };
    let top = powers.iter().map(|&a| a as usize - 1).sum();
    match (top > MOST_TOP_DEGREE, passes(&powers)) {
        (true, _) => Shape::Refused(13),
        (_, true) => Shape::Refused(11),
        _ => Shape::Top(top),
    }
}

/// The value against picus's dimension.
pub fn against(value: Option<u128>, list: &List) -> Column {
    judge(
        &value,
        || quotient_dimension(&list.picus(), list.n),
        || noted::hilbert::quotient_dimension(&list.noted(), list.n),
    )
}

pub fn dimension(tally: &mut Tally, random: &mut Random, list: &List, slow: bool) {
    match shape(list) {
        Shape::AtOnce(value) => at_once(tally, list, value),
        Shape::Refused(number) => refused(tally, list, number),
        Shape::Top(top) if top > SLOW_TOP_DEGREE && !slow => {}
        Shape::Top(top) => in_rooms(tally, random, list, top),
    }
}

fn at_once(tally: &mut Tally, list: &List, value: u64) {
    let mut rooms = Rooms::of(0, 0, 0, 0);
    let mut values = HELD;
    let number = bridge::dimension(list.n as u64, list.s as u64, &list.cells, &mut rooms.lent(), &mut values);
    let column = against(Some(value as u128), list);
    tally.expect(DIMENSION, column, told(number, &values, &[value]) && rooms.untouched(), (list, number, values));
}

/// 13 is picus's `None`; it has no 11.
fn refused(tally: &mut Tally, list: &List, wanted: u8) {
    let mut rooms = Rooms::of(0, 0, 0, 0);
    let mut values = HELD;
    let number = bridge::dimension(list.n as u64, list.s as u64, &list.cells, &mut rooms.lent(), &mut values);
    let column = if wanted == 11 { Column::Alone } else { Column::Refused };
    let same = wanted == 11 || against(None, list) == Column::Agreed;
    tally.expect(
        DIMENSION,
        column,
        number == wanted && same && values == HELD && rooms.untouched(),
        (list, number, values),
    );
}

fn in_rooms(tally: &mut Tally, random: &mut Random, list: &List, top: usize) {
    let asked = Asked { sums: 2 * (top + 1), ..list.asked() };
    let extra = random.below(3);
    let mut rooms = Rooms::of(asked.cells + extra, asked.coefficients + extra, asked.coefficients, asked.sums + extra);
    let mut values = HELD;
    let number = bridge::dimension(list.n as u64, list.s as u64, &list.cells, &mut rooms.lent(), &mut values);
    let value = (values[1] as u128) << 64 | values[0] as u128;
    let right = told(number, &values, &[values[0], values[1], top as u64]) && rooms.hold(&[], asked);
    tally.expect(DIMENSION, against(Some(value), list), right, (list, number, values));
    short(tally, random, list, asked);
}

/// A room shorter than asked, with those checked after it.
fn short(tally: &mut Tally, random: &mut Random, list: &List, asked: Asked) {
    let which = random.below(4);
    let sizes = [asked.cells, asked.coefficients, asked.coefficients, asked.sums];
    let lent: Vec<usize> = (0..4).map(|i| if i < which { sizes[i] } else { random.below(sizes[i]) }).collect();
    let mut rooms = Rooms::of(lent[0], lent[1], lent[2], lent[3]);
    let mut values = HELD;
    let number = bridge::dimension(list.n as u64, list.s as u64, &list.cells, &mut rooms.lent(), &mut values);
    let right = number == [7, 8, 8, 9][which] && values == HELD && rooms.untouched();
    tally.expect(DIMENSION, Column::Alone, right, (list, number, lent));
}
