//! A group of causal broadcast members in one thread, in plain Rust with std alone and no proof, written for speed: what the proved
//! member is measured against, as one would write it who needs no more than causal delivery. A member knows how many of its own casts the others
//! delivered, can't help them with those of a third, and ends the program where memory is wanting.

mod member;
mod one_thread;
mod own_casts;

use one_thread::Kind;
use own_casts::OwnCasts;
use std::process::ExitCode;

struct Plain;

impl Kind for Plain {
    type Duties<const FIELDS: usize> = OwnCasts<FIELDS>;
}

fn main() -> ExitCode {
    one_thread::main_of::<Plain>()
}
