//! An independent program: the network, the search and the frames once more, written
//! from the buyer's rules alone, which docs/RULES.md restates, and on purpose in another
//! shape than the proved code. Nothing here is fast; it is meant to be read.

#![forbid(unsafe_code)]

pub mod cases;
pub mod check;
mod damage;
pub mod display;
pub mod frames;
pub mod index;
pub mod index_cases;
pub mod laws;
pub mod make;
pub mod model;
mod potentials;
pub mod program;
pub mod random;
pub mod selftest;
