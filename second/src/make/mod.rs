//! The makers of cases. Each is a fixed list and then numbers by chance from a fixed seed.

pub mod alike;
pub mod carrier;
pub mod changes;
pub mod damage;
pub mod formulas;
pub mod judging;
pub mod known;
pub mod names;
pub mod packets;
pub mod proofs;
pub mod searching;
pub mod sizes;
pub mod texts;
pub mod tptp;
pub mod wanted;
