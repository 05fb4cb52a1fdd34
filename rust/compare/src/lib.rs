//! Job files to hold the proved programs against the reference: generated ones, damaged ones, those of the gate.

pub mod generate;
pub mod packs;
pub mod random;
