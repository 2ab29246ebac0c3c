//! The second program: the answers of documents 01 and 02, written from those documents alone and in the plainest way,
//! to be compared with the desk's own. See README.md.

pub mod answers;
pub mod batch;
pub mod carrier;
pub mod chance;
pub mod check;
pub mod counts;
pub mod examples;
pub mod expression;
pub mod formula;
pub mod make;
pub mod refusals;
pub mod search;
pub mod spell;
pub mod strip;
pub mod table;
pub mod tptp;
pub mod trees;
pub mod verdict;
