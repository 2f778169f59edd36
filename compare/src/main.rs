//! Runs a script of `link_script` through quinn-proto's own token files, and prints what they answer: the same lines without
//! causes, which the Rust does not tell, and `-` where it has no answer.
// The files name other crates: each of these names is this one, which has what they use of it.
extern crate self as bytes;
extern crate self as fastbloom;
extern crate self as lru_slab;
extern crate self as rand;
extern crate self as rustc_hash;
extern crate self as tracing;

mod aes;
mod ccm;
mod schemes;
mod script;
mod sha256;
mod stand_ins;

include!(concat!(env!("OUT_DIR"), "/quinn.rs"));

pub(crate) use shared::ConnectionId;
pub(crate) use stand_ins::*;
pub(crate) use std::time::{Duration, Instant, SystemTime, UNIX_EPOCH};
pub(crate) use token::{ResetToken, TokenLog, TokenReuseError};

pub(crate) const MAX_CID_SIZE: usize = 20;
pub(crate) const RESET_TOKEN_SIZE: usize = 16;

fn main() {
    // A token that says too late a time makes the Rust panic; that is caught, and need not be told.
    std::panic::set_hook(Box::new(|_| {}));
    let text = std::io::read_to_string(std::io::stdin()).unwrap();
    script::run(&text, &mut std::io::stdout().lock());
}
