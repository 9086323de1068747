//! Comparison of the proved calls, as a C program has them, with the second
//! implementation.

pub mod areas;

pub mod bundles;

pub mod calls;

pub mod colliding;

pub mod crowded;

pub mod expected;

pub mod grids;

pub mod lent;

pub mod placing;

pub mod surfaces;

use std::env;
use std::str::FromStr;
use std::thread;

use citternblaze_calls::STACK_BYTES;

/// What is answered on a thread with a stack of exactly so many bytes.
pub fn on_stack<T: Send + 'static>(bytes: usize, call: impl FnOnce() -> T + Send + 'static) -> T {
    let thread = thread::Builder::new().stack_size(bytes).spawn(call);
    thread.expect("a thread").join().expect("an answer")
}

/// What is answered on a thread with exactly the stack that suffices for any call.
pub fn on_header_stack<T: Send + 'static>(call: impl FnOnce() -> T + Send + 'static) -> T {
    on_stack(STACK_BYTES, call)
}

/// The number that an environment variable gives, or else this one.
pub fn setting<T: FromStr>(name: &str, otherwise: T) -> T {
    match env::var(name) {
        Ok(text) => match text.parse() {
            Ok(number) => number,
            Err(_) => panic!("{name} is no number: {text}"),
        },
        Err(_) => otherwise,
    }
}

/// The seed of random input: CITTERNBLAZE_SEED, or else 1. It is printed, so
/// that a run can be repeated.
pub fn seed(of: &str) -> u64 {
    let seed = setting("CITTERNBLAZE_SEED", 1);
    println!("{of}: seed {seed} (CITTERNBLAZE_SEED)");
    seed
}
