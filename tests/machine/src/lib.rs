//! The cartridge controller of document 01, with document 02's first four wishes and its sixth to
//! eighth, written from those documents, READING.md and READING-02.md alone, with a generator of
//! sessions and a comparison of another program with it.
//!
//! `machine < SESSION` answers a session, `generate SEED LINES` prints a random one, and
//! `compare PROGRAM` runs both programs on many and shrinks the first difference. With `--jobs` as
//! their first word all three do so with sessions of jobs, with `--table` with the table of document
//! 02's ninth wish, with `--wear` with runs of the eleventh, and with `--contest` with questions of
//! the twelfth.

pub mod comparison;
pub mod contest;
pub mod generator;
pub mod jobs;
pub mod kinds;
pub mod lines;
pub mod machine;
pub mod mutants;
pub mod records;
pub mod table;
pub mod wear;
