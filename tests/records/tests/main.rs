//! All comparisons in one program: linked once, counted once.

mod builder;
mod lengths;
mod merger;
mod null_pointers;
mod parity;
mod restorer;
mod round_trip;
mod scanner;
mod verifier;
mod worked_cases;
