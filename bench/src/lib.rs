//! The independent implementation, plain (`model`) and written for speed (`tight`), inputs by chance (`random`), the
//! comparison and the speed table.

pub mod compare;
#[cfg(feature = "copies")]
pub mod copies;
pub mod model;
pub mod pieces;
#[cfg(feature = "product")]
pub mod product;
pub mod random;
pub mod runtime;
pub mod speed;
pub mod tight;
