//! One request: a word, then decimal integers, every list after its length.

use crate::monomial::Monomial;

/// Why a request has no answer.
pub enum Fault {
    /// The line is not of the protocol.
    Bad,
    /// An argument is one that the type in picus does not hold, or a list's cells are not its count times its width.
    Outside,
}

pub struct Request<'a> {
    tokens: std::str::Split<'a, char>,
}

impl<'a> Request<'a> {
    pub fn of(line: &'a str) -> Self {
        Request { tokens: line.split(' ') }
    }

    pub fn word(&mut self) -> Result<&'a str, Fault> {
        self.tokens.next().ok_or(Fault::Bad)
    }

    pub fn number<T: TryFrom<i128>>(&mut self) -> Result<T, Fault> {
        let number: i128 = self.word()?.parse().map_err(|_| Fault::Bad)?;
        T::try_from(number).map_err(|_| Fault::Outside)
    }

    pub fn list<T: TryFrom<i128>>(&mut self) -> Result<Vec<T>, Fault> {
        let length: usize = self.number()?;
        (0..length).map(|_| self.number()).collect()
    }

    pub fn monomial(&mut self) -> Result<Monomial, Fault> {
        Ok(Monomial::from_exponents(self.list()?))
    }

    pub fn pair(&mut self) -> Result<(Monomial, Monomial), Fault> {
        Ok((self.monomial()?, self.monomial()?))
    }

    /// A list of monomials of width `n`: the count, then the cells after their length.
    pub fn monomials(&mut self, n: usize) -> Result<Vec<Monomial>, Fault> {
        let count: usize = self.number()?;
        let cells: Vec<u16> = self.list()?;
        if count.checked_mul(n) != Some(cells.len()) {
            return Err(Fault::Outside);
        }
        let monomial = |k: usize| Monomial::from_exponents(cells[k * n..(k + 1) * n].to_vec());
        Ok((0..count).map(monomial).collect())
    }

    /// A number of two 64-bit words, low word first.
    pub fn two_words(&mut self) -> Result<u128, Fault> {
        let (low, high): (u64, u64) = (self.number()?, self.number()?);
        Ok((high as u128) << 64 | low as u128)
    }
}
