//! Numerators and their updates, against picus's recursion, its incremental update, and each other.

use crate::bridge;
use crate::list::List;
use crate::random::Random;
use crate::rooms::{told, Rooms, HELD};
use crate::tally::{judge, Column, Tally};
use picus::hilbert::{hilbert_numerator, HilbertNum};

const NUMERATOR: &str = "numerator";
const UPDATE: &str = "update";
const DIRECT: &str = "update, direct";

/// Two to the 61: a given coefficient may not be greater in magnitude.
const MOST_GIVEN: u64 = 1 << 61;

/// The number, the coefficients, and whether `values` and the rooms hold what they must. `extra` is lent past the asked sizes.
pub fn called(list: &List, extra: usize) -> (u8, Vec<i64>, bool) {
    let asked = list.asked();
    let (cells, k) = (asked.cells + extra, asked.coefficients + extra);
    let mut rooms = Rooms::of(cells, k, k, 0);
    let mut values = HELD;
    let number = bridge::numerator(list.n as u64, list.s as u64, &list.cells, &mut rooms.lent(), &mut values);
    if number != 0 {
        return (number, Vec::new(), false);
    }
    let length = (values[0] as usize).min(asked.coefficients);
    let coefficients = rooms.first()[..length].to_vec();
    let right = told(number, &values, &[length as u64]) && rooms.hold(&coefficients, asked);
    (number, coefficients, right)
}

/// The coefficients, compared with picus's.
pub fn numerator(tally: &mut Tally, random: &mut Random, list: &List) -> Vec<i64> {
    let (number, coefficients, right) = called(list, random.below(3));
    let column = judge(
        &coefficients,
        || hilbert_numerator(&list.picus()).coeffs().to_vec(),
        || noted::hilbert::hilbert_numerator(&list.noted()),
    );
    tally.expect(NUMERATOR, column, right, (list, number, &coefficients));
    short(tally, random, list);
    coefficients
}

/// A room shorter than asked, alone or with those checked after it.
fn short(tally: &mut Tally, random: &mut Random, list: &List) {
    let asked = list.asked();
    let (mut sizes, which) = ([asked.cells, asked.coefficients, asked.coefficients], random.below(3));
    if sizes[which] == 0 {
        return;
    }
    sizes[which] = random.below(sizes[which]);
    if which == 0 {
        sizes[1] = random.below(sizes[1]);
    }
    let mut rooms = Rooms::of(sizes[0], sizes[1], sizes[2], 0);
    let mut values = HELD;
    let number = bridge::numerator(list.n as u64, list.s as u64, &list.cells, &mut rooms.lent(), &mut values);
    let right = number == if which == 0 { 7 } else { 8 } && values == HELD && rooms.untouched();
    tally.expect(NUMERATOR, Column::Alone, right, (list, number, sizes));
}

/// Numbers that are refused before any room: the call with no room at all.
pub fn refused(tally: &mut Tally, n: u64, s: u64, cells: &[u16]) {
    let wanted = if n > 255 {
        1
    } else if s > 60 {
        2
    } else if cells.len() as u64 != s * n {
        3
    } else {
        return;
    };
    let mut rooms = Rooms::of(0, 0, 0, 0);
    let mut values = HELD;
    let number = bridge::numerator(n, s, cells, &mut rooms.lent(), &mut values);
    tally.expect(
        NUMERATOR,
        Column::Alone,
        number == wanted && values == HELD && rooms.untouched(),
        (n, s, cells.len(), number),
    );
    let number = bridge::update(n, &[i64::MIN], s, cells, 0, &[], &mut rooms.lent(), &mut values);
    tally.expect(
        UPDATE,
        Column::Alone,
        number == wanted && values == HELD && rooms.untouched(),
        (n, s, cells.len(), number),
    );
    let number = bridge::update(n, &[i64::MIN], 0, &[], s, cells, &mut rooms.lent(), &mut values);
    tally.expect(
        UPDATE,
        Column::Alone,
        number == wanted && values == HELD && rooms.untouched(),
        (n, s, cells.len(), number),
    );
}

/// More than 60 monomials only together.
pub fn too_many(tally: &mut Tally, s0: u64, s1: u64) {
    let mut rooms = Rooms::of(0, 0, 0, 0);
    let mut values = HELD;
    let number = bridge::update(1, &[], s0, &[], s1, &[], &mut rooms.lent(), &mut values);
    tally.expect(UPDATE, Column::Alone, number == 2 && values == HELD && rooms.untouched(), (s0, s1, number));
}

/// The number, and the coefficients where it is 0; whether `values` and the rooms hold what they must.
fn updated(given: &[i64], old: &List, new: &List, short: bool) -> (u8, Vec<i64>, bool) {
    let mut asked = old.joined(new).asked();
    asked.coefficients = asked.coefficients.max(given.len());
    let mut rooms = Rooms::of(asked.cells, asked.coefficients, asked.coefficients - short as usize, 0);
    let mut values = HELD;
    let number = bridge::update(
        old.n as u64,
        given,
        old.s as u64,
        &old.cells,
        new.s as u64,
        &new.cells,
        &mut rooms.lent(),
        &mut values,
    );
    if number != 0 {
        return (number, Vec::new(), values == HELD && rooms.untouched());
    }
    let length = (values[0] as usize).min(asked.coefficients);
    let coefficients = rooms.first()[..length].to_vec();
    let right = told(number, &values, &[length as u64]) && rooms.hold(&coefficients, asked);
    (number, coefficients, right)
}

/// The list's monomials from number k on added to those before them: the same as the numerator at once, and as picus's update.
pub fn update(tally: &mut Tally, random: &mut Random, list: &List, coefficients: &[i64]) {
    let (old, new) = list.parted(random.below(list.s + 1));
    let (_, given, _) = called(&old, 0);
    let (number, found, right) = updated(&given, &old, &new, false);
    tally.expect(DIRECT, Column::Agreed, right && found == coefficients, (list, old.s, number, &found));
    compare(tally, &given, &old, &new, (number, found, right));
    let (number, _, right) = updated(&given, &old, &new, true);
    tally.expect(UPDATE, Column::Alone, right && number == 8, (list, old.s, number));
}

/// Any coefficients given: picus subtracts the same terms from them.
pub fn any_given(tally: &mut Tally, random: &mut Random, list: &List) {
    let given = coefficients(random);
    let (old, new) = list.parted(random.below(list.s + 1));
    let answer = updated(&given, &old, &new, false);
    if given.iter().any(|x| x.unsigned_abs() > MOST_GIVEN) {
        tally.expect(UPDATE, Column::Alone, answer.0 == 15 && answer.2, (list, old.s, &given, answer));
    } else {
        compare(tally, &given, &old, &new, answer);
    }
}

/// picus keeps zeros at the end of coefficients that it is given and does not change.
fn trimmed(coefficients: &[i64]) -> Vec<i64> {
    let length = coefficients.iter().rposition(|&x| x != 0).map_or(0, |k| k + 1);
    coefficients[..length].to_vec()
}

fn compare(tally: &mut Tally, given: &[i64], old: &List, new: &List, (number, found, right): (u8, Vec<i64>, bool)) {
    let column = judge(
        &found,
        || trimmed(HilbertNum::of(given.to_vec()).add_generators_incremental(&old.picus(), &new.picus()).coeffs()),
        || noted::hilbert::HilbertNum::of(given.to_vec()).add_generators_incremental(&old.noted(), &new.noted()),
    );
    tally.expect(UPDATE, column, right, (given, old, new, number, &found));
}

/// Coefficients of any size, most of them where an update takes them, some with zeros at the end.
fn coefficients(random: &mut Random) -> Vec<i64> {
    let bound = random.one_of(&[2, 1000, MOST_GIVEN as i64, MOST_GIVEN as i64, i64::MAX - 1]);
    let mut given: Vec<i64> = (0..random.below(12))
        .map(|_| match random.below(4) {
            0 => bound - random.below(2) as i64,
            1 => -bound + random.below(2) as i64,
            2 if bound == i64::MAX - 1 => i64::MIN + random.below(3) as i64,
            2 => bound + random.below(20).saturating_sub(18) as i64,
            _ => random.from(0, 20) as i64 - 10,
        })
        .collect();
    given.resize(given.len() + random.below(3), 0);
    given
}
