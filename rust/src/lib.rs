//! Checks of the proved SPDM responder from outside.
//!
//! The proved responder is a static library with a C interface ([`ffi`]). [`plain`] is a second responder, written
//! from paper 01 and what paper 02 amends of it, without a look at the first one's code. Tests feed both the same bytes
//! and compare everything they leave behind; `plain_c/` makes it a static library, for the driver of `fuzz/`.
//! [`tuned`] is that second responder with its reader made fast by hand, a mark for the proved one's speed.
//!
//! # How to run
//!
//! The library is looked for in `../target/staticlib`; `SPDM_LIB_DIR` names another directory.
//!
//! * `cargo test --release`: the vectors (`tests/vectors.rs`), through all three responders, and the random runs of
//!   calls (`tests/differential.rs`). The vectors are those that the program `vectors` runs.
//! * `SPDM_SEED=7 SPDM_CALLS=5000000 cargo test --release --test differential -- --nocapture`: other random runs,
//!   more of them, with the count of what was met.
//! * `cargo run --release --bin bench`: times all three, and counts their instructions by valgrind's callgrind.
//!
//! There are no dependencies but the standard library.

pub mod ffi;
pub mod plain;
pub mod tuned;
