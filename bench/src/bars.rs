//! The bars: what the ratio of a row must at least be. A row that is below its bar is told, and what has not been
//! measured too.

/// The tables that can be asked for, in the order in which they are printed.
#[derive(Clone, Copy, PartialEq, Eq)]
pub enum Table {
    Records,
    Sizes,
    Sessions,
    Wear,
}

pub const TABLES: [(&str, Table); 4] = [
    ("records", Table::Records),
    ("sizes", Table::Sizes),
    ("sessions", Table::Sessions),
    ("wear", Table::Wear),
];

impl Table {
    pub fn of_word(word: &str) -> Option<Table> {
        TABLES
            .iter()
            .find_map(|&(name, table)| (name == word).then_some(table))
    }

    /// The tables whose rows have bars. The others say what a byte and a record cost, over sizes.
    fn has_bars(self) -> bool {
        matches!(self, Table::Records | Table::Sessions)
    }
}

/// The rows that were held to their bars.
#[derive(Default)]
pub struct Bars {
    held: usize,
    below: Vec<String>,
}

/// How often a row that is below its bar is timed again, so that a busy moment does not decide.
pub const AGAIN: usize = 3;

impl Bars {
    pub fn hold(&mut self, row: &str, ratio: f64, bar: f64) {
        self.held += 1;
        if ratio < bar {
            self.below
                .push(format!("below its bar: {row} {ratio:.3} < {bar:.2}"));
        }
    }

    /// Prints what was found; whether no row is below its bar.
    pub fn tell(&self, measured: &[Table]) -> bool {
        println!(
            "{} rows held to their bars, {} below.",
            self.held,
            self.below.len()
        );
        for (name, table) in TABLES {
            if !measured.contains(&table) && table.has_bars() {
                println!("not measured, so not held to their bars: the rows of {name}");
            } else if measured.contains(&table) && !table.has_bars() {
                println!("without a bar: the rows of {name}");
            }
        }
        for line in &self.below {
            println!("{line}");
        }
        self.below.is_empty()
    }
}
