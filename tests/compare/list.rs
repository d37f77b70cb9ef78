//! A list of monomials as the bridge takes it and as picus takes it, and the sizes that it asks by document 01.

use picus::monomial::Monomial;

#[derive(Clone, Debug)]
pub struct List {
    pub n: usize,
    pub s: usize,
    pub cells: Vec<u16>,
}

/// What a call on lists asks: exponent cells, coefficients of either room, words of the sum room.
#[derive(Clone, Copy, Default, Debug)]
pub struct Asked {
    pub cells: usize,
    pub coefficients: usize,
    pub sums: usize,
}

impl List {
    pub fn of(n: usize, monomials: &[Vec<u16>]) -> Self {
        assert!(monomials.iter().all(|m| m.len() == n));
        List { n, s: monomials.len(), cells: monomials.concat() }
    }

    pub fn at(&self, k: usize) -> &[u16] {
        &self.cells[k * self.n..(k + 1) * self.n]
    }

    pub fn monomials(&self) -> Vec<Vec<u16>> {
        (0..self.s).map(|k| self.at(k).to_vec()).collect()
    }

    pub fn picus(&self) -> Vec<Monomial> {
        self.monomials().into_iter().map(Monomial::from_exponents).collect()
    }

    pub fn noted(&self) -> Vec<noted::monomial::Monomial> {
        self.monomials().into_iter().map(noted::monomial::Monomial::from_exponents).collect()
    }

    pub fn joined(&self, other: &List) -> List {
        List { n: self.n, s: self.s + other.s, cells: [&self.cells[..], &other.cells[..]].concat() }
    }

    /// The first `k` monomials, and the rest.
    pub fn parted(&self, k: usize) -> (List, List) {
        let (a, b) = self.cells.split_at(k * self.n);
        (List { n: self.n, s: k, cells: a.to_vec() }, List { n: self.n, s: self.s - k, cells: b.to_vec() })
    }

    /// s·n·(s+e) cells, and 1 + the degree of the lcm.
    pub fn asked(&self) -> Asked {
        let (mut pairs, mut degree) = (0, 0);
        for v in 0..self.n {
            let mut exponents: Vec<u16> = (0..self.s).map(|k| self.at(k)[v]).collect();
            exponents.sort_unstable();
            exponents.dedup();
            pairs += exponents.iter().filter(|&&x| x != 0).count();
            degree += exponents.last().map_or(0, |&x| x as usize);
        }
        Asked { cells: self.s * self.n * (self.s + pairs), coefficients: degree + 1, sums: 0 }
    }
}
