//! A list as ours and as picus takes it, and the rooms. They are lent as the last call left them; every call clears its own part.

use crate::bridge::{self, Lent, Values};
use crate::list::List;
use picus::hilbert::{hilbert_numerator, quotient_dimension, HilbertNum};
use picus::monomial::Monomial;
use std::hint::black_box;

pub struct Rooms {
    room: Vec<u16>,
    first: Vec<i64>,
    second: Vec<i64>,
    sums: Vec<u64>,
}

impl Rooms {
    /// Rooms for a list, and for a given numerator of so many coefficients.
    fn of(list: &List, given: usize) -> Self {
        let asked = list.asked();
        let coefficients = asked.coefficients.max(given);
        Rooms {
            room: vec![7; asked.cells],
            first: vec![7; coefficients],
            second: vec![7; coefficients],
            sums: vec![7; 2 * coefficients],
        }
    }

    /// Rooms for each of the lists, one after another, as a solver keeps them.
    pub fn of_all(all: &[Prepared]) -> Self {
        let mut rooms = Rooms { room: vec![], first: vec![], second: vec![], sums: vec![] };
        for p in all {
            let own = Rooms::of(&p.list, 0);
            rooms.room.resize(rooms.room.len().max(own.room.len()), 7);
            rooms.first.resize(rooms.first.len().max(own.first.len()), 7);
            rooms.second.resize(rooms.second.len().max(own.second.len()), 7);
            rooms.sums.resize(rooms.sums.len().max(own.sums.len()), 7);
        }
        rooms
    }

    fn lent(&mut self) -> Lent<'_> {
        Lent { room: &mut self.room, first: &mut self.first, second: &mut self.second, sums: &mut self.sums }
    }
}

pub struct Prepared {
    pub list: List,
    record: Vec<u8>,
    picus: Vec<Monomial>,
}

fn record(list: &List) -> Vec<u8> {
    let mut bytes = vec![0; 7 + 2 * list.cells.len()];
    let mut values: Values = [0; 4];
    assert_eq!(bridge::write_record(list.n as u64, list.s as u64, &list.cells, &mut bytes, &mut values), 0);
    bytes.truncate(values[0] as usize);
    bytes
}

impl Prepared {
    pub fn of(list: List) -> Self {
        Prepared { record: record(&list), picus: list.picus(), list }
    }

    /// Rooms for this list alone.
    pub fn rooms(&self) -> Rooms {
        Rooms::of(&self.list, 0)
    }

    #[inline(never)]
    pub fn numerator<'a>(&self, rooms: &'a mut Rooms) -> &'a [i64] {
        let mut values: Values = [0; 4];
        let list = black_box(&self.list);
        let number = bridge::numerator(list.n as u64, list.s as u64, &list.cells, &mut rooms.lent(), &mut values);
        assert_eq!(number, 0);
        &rooms.first[..values[0] as usize]
    }

    #[inline(never)]
    pub fn dimension(&self, rooms: &mut Rooms) -> u128 {
        let mut values: Values = [0; 4];
        let list = black_box(&self.list);
        let number = bridge::dimension(list.n as u64, list.s as u64, &list.cells, &mut rooms.lent(), &mut values);
        assert_eq!(number, 0);
        (values[1] as u128) << 64 | values[0] as u128
    }

    /// The dimension by the host call, which has rooms of its own.
    #[inline(never)]
    pub fn host(&self) -> u128 {
        let mut out = [0; 26];
        assert_eq!(bridge::host(black_box(&self.record), &mut out), 0);
        u128::from_be_bytes(out[6..22].try_into().expect("sixteen bytes"))
    }

    #[inline(never)]
    pub fn rust_numerator(&self) -> HilbertNum {
        hilbert_numerator(black_box(&self.picus))
    }

    #[inline(never)]
    pub fn rust_dimension(&self) -> Option<u128> {
        quotient_dimension(black_box(&self.picus), self.list.n)
    }

    /// The host call's work by a Rust host, which picus leaves to it: the monomials from the record's bytes, the dimension, and its bytes. It
    /// trusts the record, and has no top degree.
    #[inline(never)]
    pub fn rust_host(&self) -> u128 {
        let record = black_box(&self.record);
        let n = usize::from(record[5]);
        let exponents = |row: &[u8]| row.chunks(2).map(|x| u16::from_be_bytes([x[0], x[1]])).collect();
        let list: Vec<Monomial> = record[7..].chunks(2 * n).map(|row| Monomial::from_exponents(exponents(row))).collect();
        let mut out = [0; 26];
        out[6..22].copy_from_slice(&quotient_dimension(&list, n).expect("a dimension").to_be_bytes());
        u128::from_be_bytes(black_box(&out)[6..22].try_into().expect("sixteen bytes"))
    }
}

/// A call by ours and by picus, and whether they have one answer.
#[derive(Clone, Copy)]
pub struct Call {
    pub ours: fn(&Prepared, &mut Rooms),
    pub rust: fn(&Prepared),
    pub same: fn(&Prepared, &mut Rooms) -> bool,
}

#[rustfmt::skip]
pub const NUMERATOR: Call = Call {
    ours: |p, rooms| { p.numerator(rooms); },
    rust: |p| { p.rust_numerator(); },
    same: |p, rooms| p.rust_numerator().coeffs() == p.numerator(rooms),
};

#[rustfmt::skip]
pub const DIMENSION: Call = Call {
    ours: |p, rooms| { p.dimension(rooms); },
    rust: |p| { p.rust_dimension(); },
    same: |p, rooms| p.rust_dimension() == Some(p.dimension(rooms)),
};

/// picus has no such call: beside it stands what a Rust host does around its dimension.
#[rustfmt::skip]
pub const HOST: Call = Call {
    ours: |p, _| { p.host(); },
    rust: |p| { p.rust_host(); },
    same: |p, _| p.rust_host() == p.host(),
};

/// The last monomial of a list added to the others, whose numerator is given.
pub struct Update {
    pub list: List,
    old: List,
    new: List,
    given: Vec<i64>,
    rust_given: HilbertNum,
    rust_old: Vec<Monomial>,
    rust_new: Vec<Monomial>,
}

impl Update {
    pub fn of(list: List) -> Self {
        let (old, new) = list.parted(list.s - 1);
        let given = Prepared::of(old.clone()).numerator(&mut Rooms::of(&old, 0)).to_vec();
        let (rust_given, rust_old, rust_new) = (HilbertNum::of(given.clone()), old.picus(), new.picus());
        Update { list, old, new, given, rust_given, rust_old, rust_new }
    }

    pub fn rooms(&self) -> Rooms {
        Rooms::of(&self.list, self.given.len())
    }

    #[inline(never)]
    pub fn update<'a>(&self, rooms: &'a mut Rooms) -> &'a [i64] {
        let mut values: Values = [0; 4];
        let (old, new) = (black_box(&self.old), &self.new);
        let number = bridge::update(
            old.n as u64,
            &self.given,
            old.s as u64,
            &old.cells,
            new.s as u64,
            &new.cells,
            &mut rooms.lent(),
            &mut values,
        );
        assert_eq!(number, 0);
        &rooms.first[..values[0] as usize]
    }

    #[inline(never)]
    pub fn rust_update(&self) -> HilbertNum {
        self.rust_given.add_generators_incremental(black_box(&self.rust_old), &self.rust_new)
    }

    pub fn is_same(&self) -> bool {
        self.rust_update().coeffs() == self.update(&mut self.rooms())
    }
}
