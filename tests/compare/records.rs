//! Ideal records. picus has none: the bytes are made here, from its `divides` and its order.

use crate::bridge;
use crate::list::List;
use crate::random::Random;
use crate::rooms::{told, Fenced, HELD};
use crate::tally::{Column, Tally};
use picus::monomial::{Monomial, MonomialOrder};

const WRITE: &str = "record";
const READ: &str = "record, read";
const SAME: &str = "same ideal";

/// The minimal monomials, each once, greatest first.
fn minimal(list: &List) -> Vec<Monomial> {
    let all = list.picus();
    let kept = |k: usize| !(0..all.len()).any(|j| j != k && all[j].divides(&all[k]) && (j < k || all[j] != all[k]));
    let mut minimal: Vec<Monomial> = (0..all.len()).filter(|&k| kept(k)).map(|k| all[k].clone()).collect();
    minimal.sort_by(|a, b| b.cmp_with_order(a, MonomialOrder::DegRevLex));
    minimal
}

pub fn record(list: &List) -> Vec<u8> {
    let minimal = minimal(list);
    let mut bytes = vec![1];
    bytes.extend((2 + 2 * minimal.len() as u32 * list.n as u32).to_be_bytes());
    bytes.extend([list.n as u8, minimal.len() as u8]);
    bytes.extend(minimal.iter().flat_map(|m| m.exponents()).flat_map(|x| x.to_be_bytes()));
    bytes
}

fn written(list: &List, len: usize) -> (u8, [u64; 4], Fenced<u8>) {
    let mut out = Fenced::of(len, 0xee);
    let mut values = HELD;
    let number = bridge::write_record(list.n as u64, list.s as u64, &list.cells, out.lent(), &mut values);
    (number, values, out)
}

pub fn write(tally: &mut Tally, random: &mut Random, list: &List) -> Vec<u8> {
    let wanted = record(list);
    let (number, values, out) = written(list, wanted.len() + random.below(3));
    let right = told(number, &values, &[wanted.len() as u64]) && out.holds(&wanted, wanted.len());
    tally.expect(WRITE, Column::Agreed, right, (list, number, out.now()));
    let (number, values, out) = written(list, random.below(wanted.len()));
    tally.expect(WRITE, Column::Alone, number == 14 && values == HELD && out.holds(&[], 0), (list, number));
    wanted
}

/// The list in another order, with monomials twice and multiples of listed ones among them: the same bytes.
pub fn shuffled(random: &mut Random, list: &List) -> List {
    let mut all = list.monomials();
    for _ in 0..random.below(4) {
        if !all.is_empty() && all.len() < 60 {
            let mut another = all[random.below(all.len())].clone();
            if list.n > 0 && random.below(2) == 0 {
                let v = random.below(list.n);
                another[v] = another[v].saturating_add(random.below(3) as u16);
            }
            all.push(another);
        }
    }
    random.shuffle(&mut all);
    List::of(list.n, &all)
}

pub fn same(tally: &mut Tally, list: &List, other: &List, record: &[u8]) {
    let (number, _, out) = written(other, record.len());
    tally.expect(SAME, Column::Agreed, number == 0 && out.holds(record, record.len()), (list, other));
}

/// What the bytes list, where writing it out gives the bytes again.
pub fn parsed(bytes: &[u8]) -> Option<List> {
    let (&n, &m) = (bytes.get(5)?, bytes.get(6)?);
    let (n, m) = (n as usize, m as usize);
    if m > 60 || bytes.len() != 7 + 2 * m * n {
        return None;
    }
    let cells = bytes[7..].chunks(2).map(|x| u16::from_be_bytes([x[0], x[1]])).collect();
    let list = List { n, s: m, cells };
    (record(&list) == bytes).then_some(list)
}

/// A record or any bytes: check, place and copy.
pub fn read(tally: &mut Tally, random: &mut Random, bytes: &[u8]) {
    let list = parsed(bytes);
    let k = random.below(list.as_ref().map_or(3, |l| l.s + 2));
    let number = match &list {
        None => 12,
        Some(list) if k >= list.s => 4,
        Some(_) => 0,
    };
    let part: Vec<u8> = match &list {
        Some(list) if number == 0 => list.at(k).iter().flat_map(|x| x.to_be_bytes()).collect(),
        _ => Vec::new(),
    };
    let column = if number == 0 { Column::Agreed } else { Column::Alone };
    tally.expect(READ, column, bridge::check_place(bytes, k as u64) == number, (bytes, k));
    let mut out = Fenced::of(510, 0xee);
    let mut values = HELD;
    let found = bridge::place(bytes, k as u64, out.lent(), &mut values);
    let right =
        if number == 0 { told(found, &values, &[part.len() as u64]) } else { found == number && values == HELD };
    tally.expect(READ, column, right && out.holds(&part, part.len()), (bytes, k, found));
    copy(tally, random, bytes, list);
}

fn copy(tally: &mut Tally, random: &mut Random, bytes: &[u8], list: Option<List>) {
    let asked = list.as_ref().map_or(20, |l| l.cells.len());
    let lent = if asked > 0 && random.below(4) == 0 { random.below(asked) } else { asked + random.below(3) };
    let mut cells = Fenced::of(lent, 0xeeeeu16);
    let mut values = HELD;
    let number = bridge::copy_record(bytes, cells.lent(), &mut values);
    match list {
        Some(list) if lent >= asked => {
            let right = told(number, &values, &[list.n as u64, list.s as u64]) && cells.holds(&list.cells, asked);
            tally.expect(READ, Column::Agreed, right, (bytes, number));
        }
        other => {
            let wanted = if other.is_some() { 14 } else { 12 };
            tally.expect(
                READ,
                Column::Alone,
                number == wanted && values == HELD && cells.holds(&[], 0),
                (bytes, number),
            );
        }
    }
}

/// The record with a byte changed, left out or added.
pub fn damaged(random: &mut Random, record: &[u8]) -> Vec<u8> {
    let mut bytes = record.to_vec();
    let k = random.below(bytes.len());
    match random.below(8) {
        0 => bytes.truncate(k),
        1 => bytes.push(random.any() as u8),
        2 if bytes.len() > 10 => {
            let j = 7 + random.below(bytes.len() - 7);
            bytes.swap(k, j);
        }
        3 => bytes[k] = bytes[k].wrapping_add(1),
        4 => bytes[k] = bytes[k].wrapping_sub(1),
        _ => bytes[k] = random.any() as u8,
    }
    bytes
}
