//! Stand-in for `rustc_hash`: a map from ids that walks in the order of their places. With the feature `hashed` it is a hash map
//! with the crate's hash function, whose walk has no order: for timing alone.
#[cfg(feature = "hashed")]
mod hashed;
#[cfg(feature = "hashed")]
pub use hashed::FxHashMap;
#[cfg(not(feature = "hashed"))]
mod placed;
#[cfg(not(feature = "hashed"))]
pub use placed::FxHashMap;
