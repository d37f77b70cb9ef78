//! The host call: the dimension of a record's list, in rooms of fixed sizes.

use crate::bridge;
use crate::dimensions::{against, shape, Shape, SLOW_TOP_DEGREE};
use crate::list::List;
use crate::random::Random;
use crate::records::parsed;
use crate::rooms::Fenced;
use crate::tally::{Column, Tally};

const HOST: &str = "host";

/// The rooms that the call has: exponent cells, coefficients twice, words of sums.
const CELLS: usize = 16384;
const COEFFICIENTS: usize = 4096;
const WORDS: usize = 4096;

const ANSWER: usize = 26;

/// An answer record.
fn answer(status: u8, dimension: u128, top: u32) -> Vec<u8> {
    let mut bytes = vec![1, 0, 0, 0, 21, status];
    bytes.extend(dimension.to_be_bytes());
    bytes.extend(top.to_be_bytes());
    bytes
}

/// The number for a list, and the top degree where that is 0.
fn number(list: &List) -> (u8, u32) {
    let top = match shape(list) {
        Shape::AtOnce(_) => return (0, 0),
        Shape::Refused(number) => return (number, 0),
        Shape::Top(top) => top,
    };
    let asked = list.asked();
    if asked.cells > CELLS {
        (7, 0)
    } else if asked.coefficients > COEFFICIENTS {
        (8, 0)
    } else if 2 * (top + 1) > WORDS {
        (9, 0)
    } else {
        (0, top as u32)
    }
}

/// A record or any bytes, with an output of 0 to 40 bytes.
pub fn host(tally: &mut Tally, random: &mut Random, bytes: &[u8]) {
    let lent = if random.below(4) == 0 { random.below(41) } else { ANSWER };
    let mut out = Fenced::of(lent, 0xee);
    let found = bridge::host(bytes, out.lent());
    let about = (bytes, lent, found);
    if lent < ANSWER {
        return tally.expect(HOST, Column::Alone, found == 14 && out.holds(&[], 0), about);
    }
    let list = parsed(bytes);
    let (wanted, top) = list.as_ref().map_or((12, 0), number);
    if wanted != 0 {
        let right = found == wanted && out.holds(&answer(wanted, 0, 0), ANSWER);
        return tally.expect(HOST, Column::Alone, right, about);
    }
    let Some(list) = list.filter(|_| top as usize <= SLOW_TOP_DEGREE) else { return };
    let dimension = u128::from_be_bytes(out.now()[6..22].try_into().expect("sixteen bytes"));
    let right = found == 0 && out.holds(&answer(0, dimension, top), ANSWER);
    tally.expect(HOST, against(Some(dimension), &list), right, about);
}
