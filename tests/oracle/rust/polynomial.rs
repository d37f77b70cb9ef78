//! Stand-in for a type that `repr.rs` names and nothing here uses.
pub struct PolyRing;
