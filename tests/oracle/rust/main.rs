//! Line driver over picus: one request a line on standard input, one answer a line on standard output.
//! The protocol is in tests/oracle/README.md. The same driver is built over the unchanged and over the noted sources.
#![allow(dead_code)]

// `repr.rs` imports a crate `num_bigint`; this crate stands in for it.
extern crate self as num_bigint;
pub struct BigUint;

mod divmask;
mod field;
mod hilbert;
mod matrix_order;
mod monomial;
#[cfg(noted)]
mod note;
mod polynomial;
mod repr;
mod request;

use divmask::{DivMask, DivMaskScheme};
use hilbert::{hilbert_numerator, quotient_dimension, HilbertNum};
use monomial::{Monomial, MonomialOrder};
use request::{Fault, Request};
use std::fmt::Display;
use std::io::{BufRead, Write};
use std::panic::{catch_unwind, AssertUnwindSafe};

/// The recursion of `hilbert_numerator` is as deep as the list makes it.
const STACK_BYTES: usize = 1 << 30;

/// `power` allocates its width; more than this is not tried.
const WIDEST_POWER: usize = 1 << 20;

type Answer = Result<Option<String>, Fault>;

fn one<T: Display>(value: T) -> Answer {
    Ok(Some(value.to_string()))
}

fn bit(value: bool) -> Answer {
    one(value as u8)
}

fn list<T: Display>(values: &[T]) -> Answer {
    let mut text = values.len().to_string();
    for value in values {
        text.push(' ');
        text.push_str(&value.to_string());
    }
    Ok(Some(text))
}

fn cells(monomial: Monomial) -> Answer {
    list(monomial.exponents())
}

fn coefficients(numerator: HilbertNum) -> Answer {
    list(numerator.coeffs())
}

fn order(request: &mut Request, order: MonomialOrder) -> Answer {
    let (a, b) = request.pair()?;
    one(a.cmp_with_order(&b, order) as i8 + 1)
}

fn power(request: &mut Request) -> Answer {
    let (n, v, x): (usize, usize, u16) = (request.number()?, request.number()?, request.number()?);
    if n > WIDEST_POWER {
        return Err(Fault::Outside);
    }
    cells(Monomial::single_var(n, v, x))
}

fn mask(request: &mut Request) -> Answer {
    let (n, max_deg): (usize, u16) = (request.number()?, request.number()?);
    let exponents: Vec<u16> = request.list()?;
    one(DivMaskScheme::build(n, max_deg).compute_from_slice(&exponents).0)
}

fn consistent(request: &mut Request) -> Answer {
    let (a, b) = (request.two_words()?, request.two_words()?);
    bit(DivMask(a).divides_consistent_with(DivMask(b)))
}

fn numerator(request: &mut Request) -> Answer {
    let n = request.number()?;
    coefficients(hilbert_numerator(&request.monomials(n)?))
}

fn update(request: &mut Request) -> Answer {
    let n = request.number()?;
    let given = HilbertNum::of(request.list()?);
    let (existing, added) = (request.monomials(n)?, request.monomials(n)?);
    coefficients(given.add_generators_incremental(&existing, &added))
}

fn hf_at(request: &mut Request) -> Answer {
    let n = request.number()?;
    let numerator = HilbertNum::of(request.list()?);
    one(numerator.hf_at(request.number()?, n))
}

fn dimension(request: &mut Request) -> Answer {
    let n = request.number()?;
    Ok(quotient_dimension(&request.monomials(n)?, n).map(|d| d.to_string()))
}

fn coeff_degree(request: &mut Request) -> Answer {
    Ok(HilbertNum::of(request.list()?).degree().map(|d| d.to_string()))
}

fn coeff(request: &mut Request) -> Answer {
    let numerator = HilbertNum::of(request.list()?);
    one(numerator.coeff(request.number()?))
}

fn exponent(request: &mut Request) -> Answer {
    let a = request.monomial()?;
    one(a.exponent(request.number()?))
}

fn on_pair(request: &mut Request, call: impl Fn(&Monomial, &Monomial) -> Answer) -> Answer {
    let (a, b) = request.pair()?;
    call(&a, &b)
}

fn answer(request: &mut Request) -> Answer {
    match request.word()? {
        "degree" => one(request.monomial()?.total_degree()),
        "exponent" => exponent(request),
        "power" => power(request),
        "product" => on_pair(request, |a, b| cells(a.mul(b))),
        "quotient" => on_pair(request, |a, b| cells(a.div(b))),
        "lcm" => on_pair(request, |a, b| cells(a.lcm(b))),
        "gcd" => on_pair(request, |a, b| cells(a.gcd(b))),
        "divides" => on_pair(request, |a, b| bit(a.divides(b))),
        "coprime" => on_pair(request, |a, b| bit(a.is_coprime(b))),
        "lex" => order(request, MonomialOrder::Lex),
        "degrevlex" => order(request, MonomialOrder::DegRevLex),
        "mask" => mask(request),
        "consistent" => consistent(request),
        "is_zero" => bit(HilbertNum::of(request.list()?).is_zero()),
        "coeff_degree" => coeff_degree(request),
        "coeff" => coeff(request),
        "numerator" => numerator(request),
        "update" => update(request),
        "hf_at" => hf_at(request),
        "dimension" => dimension(request),
        _ => Err(Fault::Bad),
    }
}

#[cfg(noted)]
fn noted() -> &'static str {
    note::taken()
}

#[cfg(not(noted))]
fn noted() -> &'static str {
    ""
}

fn reply(line: &str) -> String {
    let result = catch_unwind(AssertUnwindSafe(|| answer(&mut Request::of(line))));
    let flags = noted();
    match result {
        Ok(Ok(Some(values))) => format!("ok {values}{flags}"),
        Ok(Ok(None)) => format!("none{flags}"),
        Ok(Err(Fault::Outside)) => "outside".to_string(),
        Ok(Err(Fault::Bad)) => "bad".to_string(),
        Err(_) => format!("panic{flags}"),
    }
}

fn serve() {
    std::panic::set_hook(Box::new(|_| {}));
    let mut out = std::io::BufWriter::new(std::io::stdout());
    for line in std::io::stdin().lock().lines() {
        let line = line.expect("standard input is text");
        writeln!(out, "{}", reply(&line)).expect("standard output is open");
    }
}

fn main() {
    let server = std::thread::Builder::new().stack_size(STACK_BYTES).spawn(serve);
    server.expect("a thread starts").join().expect("the requests end");
}
