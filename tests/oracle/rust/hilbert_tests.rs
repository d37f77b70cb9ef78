//! Stands where `hilbert.rs` expects its tests, the one place from which a coefficient list can be set as it is.
use super::HilbertNum;

impl HilbertNum {
    pub fn of(coeffs: Vec<i64>) -> Self {
        HilbertNum { coeffs }
    }
}
