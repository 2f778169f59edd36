//! What quinn-proto's files use of its other files and of other crates, as far as they use it.
mod bytes;
mod filter;
mod lru;
mod rest;

pub use bytes::{Buf, BufMut, Bytes, BytesMut};
pub use filter::{BloomFilter, FxBuildHasher};
pub use lru::LruSlab;
pub use rest::{
    coding, crypto, packet, Rng, RngExt, ServerConfig, TimeSource, ValidationTokenConfig,
};
// `trace` and `warn` say nothing here.
pub(crate) use rest::{trace, warn};
