//! What is sent to the controller and what comes back, in words, both ways. `names` has every word, `interface` and
//! `records` call the proved functions, `line` reads and writes the lines of sessions, `status` the status words.
//! `explain` tells lines in words; `statement` reads and writes words, of which `make` makes lines and as which
//! `statements` tells them; `prompt` does all of it as it is typed.

#[cfg(feature = "controller")]
pub mod explain;
#[cfg(feature = "controller")]
pub mod interface;
#[cfg(feature = "controller")]
pub mod line;
#[cfg(feature = "controller")]
pub mod make;
#[cfg(feature = "controller")]
pub mod names;
#[cfg(feature = "controller")]
pub mod prompt;
pub mod records;
#[cfg(feature = "controller")]
pub mod statement;
#[cfg(feature = "controller")]
pub mod statements;
#[cfg(feature = "controller")]
pub mod status;
