//! Random scenarios, judged. `rack-soak N SEED` runs N of them; the last line is 'N passed, M failed'.

use ctc_rack::run::{run, Wrongs};
use ctc_rack::soak::{judge, scenario, separate, Tally};
use std::env;
use std::process::ExitCode;

fn main() -> ExitCode {
    let words: Vec<String> = env::args().skip(1).collect();
    let numbers: Option<Vec<u64>> = words.iter().map(|word| word.parse().ok()).collect();
    let (count, seed) = match numbers.as_deref() {
        Some([count, seed]) if *count > 0 => (*count, *seed),
        _ => {
            eprintln!("rack-soak: the words are how many scenarios, and the first seed");
            return ExitCode::from(2);
        }
    };
    let mut tally = Tally::default();
    let mut failed = 0;
    for number in 0..count {
        let seed = seed.wrapping_add(number);
        let ran = run(scenario(seed, None), &mut |_, _| {});
        tally.add(&ran);
        let mut wrong = judge(&ran);
        if number % 8 == 0 {
            wrong.extend(separate(seed, Wrongs::default()));
        }
        if !wrong.is_empty() {
            failed += 1;
            println!("FAILED scenario of seed {seed}");
            for line in wrong.iter().take(6) {
                println!("  {line}");
            }
        }
    }
    println!(
        "{} stores; {} records filed, {} lost; {} faults of tapes, {} of links, {} restarts",
        tally.stores, tally.records, tally.lost, tally.tape, tally.link, tally.restarts
    );
    println!(
        "{} stores tried again, {} records restored, {} merges, {} supplied counts, {} passes that did not fit",
        tally.retries, tally.restored, tally.merged, tally.supplied, tally.unlike
    );
    println!("{} passed, {failed} failed", count - failed);
    ExitCode::from(u8::from(failed > 0))
}
