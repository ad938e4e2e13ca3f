//! `bench SESSION JOBS MACHINE WEAR FILE [TABLE..]`: prints tables of docs/BENCHMARKS.md, `records`, `sizes`,
//! `sessions` and `wear`, or all of them, and which rows are below their bars. SESSION, JOBS and WEAR are
//! the programs, MACHINE the independent Rust machine; FILE is written, for them to read. With a word of
//! `wear` alone it is one of the programs that WEAR is compared with. Every figure is the least of many
//! timings, and programs that are compared take turns, so that a slow moment of the computer falls on all.
//!
//! Exit 0: no row is below its bar; 1: the benchmark failed; 2: bad usage; 3: a row is below its bar.

mod bars;
mod byte_at_a_time;
mod isal;
mod library;
mod records;
mod sessions;
mod timing;
mod wear;

use bars::{Bars, Table, TABLES};
use std::io;
use std::process::ExitCode;

const BELOW_ITS_BAR: u8 = 3;

fn main() -> ExitCode {
    let arguments: Vec<String> = std::env::args().skip(1).collect();
    if let [word] = &arguments[..] {
        return ended(wear::view(word).map(|()| true));
    }
    let [session, jobs, machine, wear, file, words @ ..] = &arguments[..] else {
        return usage();
    };
    let asked: Option<Vec<Table>> = words.iter().map(|word| Table::of_word(word)).collect();
    let tables = match asked {
        None => return usage(),
        Some(asked) if asked.is_empty() => TABLES.map(|(_, table)| table).into(),
        Some(asked) => asked,
    };
    let mut bars = Bars::default();
    let mut print = |table| -> io::Result<()> {
        match table {
            Table::Records => records::print_table(&mut bars),
            Table::Sizes => records::print_sizes(),
            Table::Sessions => {
                sessions::print_table([session, jobs], machine, file.as_ref(), &mut bars)?
            }
            Table::Wear => wear::print_table(wear, file.as_ref())?,
        }
        println!();
        Ok(())
    };
    let printed = tables.iter().try_for_each(|&table| print(table));
    ended(printed.map(|()| bars.tell(&tables)))
}

fn usage() -> ExitCode {
    let words = TABLES.map(|(name, _)| name).join(" | ");
    eprintln!("usage: bench SESSION JOBS MACHINE WEAR FILE [{words}]..");
    ExitCode::from(2)
}

fn ended(result: io::Result<bool>) -> ExitCode {
    match result {
        Ok(true) => ExitCode::SUCCESS,
        Ok(false) => ExitCode::from(BELOW_ITS_BAR),
        Err(error) => {
            eprintln!("bench: {error}");
            ExitCode::FAILURE
        }
    }
}
