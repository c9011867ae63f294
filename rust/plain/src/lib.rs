//! An independent implementation of reading, truth and decision, the last also as building and search, for safety rules and for the rules
//! of a sheet at once, of looking rules up in sheets, and of replacing a part of a rule, in plain Rust, written from the defining papers
//! ("documents 01 and 02") with Rust's own collections. It shares nothing with the proved library and is there to be compared with it:
//! `compared` runs one input through both, the programs `compare` and `bench` many. On small rules `least` finds a decision's course a third
//! time, by trying all that are as short. Not published.

pub mod building;
pub mod compared;
pub mod decision;
pub mod edit;
pub mod hex;
mod laps;
pub mod least;
pub mod random;
pub mod reading;
mod rounds;
pub mod safety;
pub mod scale;
pub mod set;
pub mod sheet;
pub mod truth;
