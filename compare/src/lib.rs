//! What the comparison of the proved library with the oracle and the model needs.

#![deny(unsafe_code)]

pub mod agree;
pub mod areas;
pub mod brief;
pub mod cases;
pub mod layout;
pub mod lent;
#[allow(unsafe_code)]
pub mod mapped;
pub mod model;
#[allow(unsafe_code)]
pub mod native;
pub mod random;
pub mod shown;
pub mod summary;
pub mod tapes;
