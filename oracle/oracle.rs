//! Reads a job of callrun or staterun from standard input and prints what the crate makes of it; with the argument `wrapping` built without
//! overflow checks.
#![allow(incomplete_features)]
#![feature(generic_const_exprs)]
mod bus;
mod crates;
mod job;

use std::io::Read;

fn main() {
    let wrapping = std::env::args().nth(1).as_deref() == Some("wrapping");
    let mut bytes = Vec::new();
    std::io::stdin().take(32768).read_to_end(&mut bytes).expect("standard input");
    print!("{}", crates::text(&bytes, !wrapping));
}
