//! Runs the proved library and the second program on the same inputs.
//!
//! One line for each part with its number of cases. Exit status 1 and the first difference on standard output: both answers,
//! and the inputs in hex. Exit status 2 and a message on standard error if the comparison can't be made: a file or a setting is
//! at fault, or a part would run no case. A read or write outside a lent slice ends the process by SIGSEGV (see `pages`).
//!
//! Variables: MZ_SEED and MZ_CASES (the random parts), MZ_UNICODE_DATA (the published file, of parts 2, 4, 5 and 9), MZ_NFKD and
//! MZ_NORMALIZATION (files of part 2), UTF8_TEST (the published stress test, if it is at hand), MZ_SHORT=yes (part 2 without the
//! keys of all scalar code points and NFKD, part 4 without the published table, fewer cases in 3, 4 and 6 to 9), MZ_PARTS (the
//! numbers of the parts to run, all without it).

mod abi;
mod both;
mod building;
mod cases;
mod example_hangul;
mod example_hangul_lines;
mod example_hangul_tables;
mod example_lines;
mod example_lists;
mod example_many;
mod example_page_slices;
mod example_records;
mod example_tables;
mod example_titlecases;
mod examples;
mod faults;
mod hex;
mod huge;
mod korean;
mod lent;
mod library;
mod lines;
mod list_cases;
mod lists;
mod made;
mod many;
mod many_cases;
mod matching;
mod page_calls;
mod page_lookups;
mod page_slices;
mod pages;
mod paging;
mod preparing;
mod published;
mod published_normalization;
mod published_titlecases;
mod random;
mod record_lists;
mod recording;
mod records;
mod settings;
mod sharing;
mod small;
mod steps;
mod stop;
mod stress;
mod syllables;
mod tables;
mod texts;
mod way_calls;
mod way_tables;
mod way_texts;
mod ways;

use settings::Settings;
use std::process::ExitCode;
use stop::Stop;

const DIFFERENCE: u8 = 1;
const ERROR: u8 = 2;

struct Part {
    number: char,
    name: &'static str,
    /// Runs the part and answers how many cases it had.
    run: fn(&Settings) -> Result<u64, Stop>,
}

const PARTS: [Part; 9] = [
    Part { number: '1', name: "part 1, examples", run: examples::run },
    Part { number: '2', name: "part 2, UnicodeData", run: published::run },
    Part { number: '3', name: "part 3, UTF-8 sequences", run: stress::run },
    Part { number: '4', name: "part 4, small cases", run: small::run },
    Part { number: '5', name: "part 5, random cases", run: cases::run },
    Part { number: '6', name: "part 6, records", run: records::run },
    Part { number: '7', name: "part 7, lists", run: lists::run },
    Part { number: '8', name: "part 8, many", run: many::run },
    Part { number: '9', name: "part 9, Hangul", run: syllables::run },
];

/// The parts that a list of numbers names, in their order.
fn chosen(numbers: &str) -> Result<Vec<&'static Part>, Stop> {
    let is_known = |number: char| PARTS.iter().any(|part| part.number == number);
    if numbers.is_empty() || !numbers.chars().all(is_known) {
        return Err(Stop::Error(format!("MZ_PARTS names no parts of 1 to {}: {numbers:?}", PARTS.len())));
    }
    Ok(PARTS.iter().filter(|part| numbers.contains(part.number)).collect())
}

fn run_parts() -> Result<(), Stop> {
    abi::check_interface();
    pages::check_guards()?;
    let settings = Settings::read()?;
    let parts = chosen(&settings.parts)?;
    println!("seed {}, {} random cases", settings.seed, settings.cases);
    for part in parts {
        let cases = (part.run)(&settings).map_err(|stop| stop.in_part(part.name))?;
        paging::compare_free().map_err(|difference| Stop::from(difference).in_part(part.name))?;
        if cases == 0 {
            return Err(Stop::Error(format!("{}: no case was run", part.name)));
        }
        println!("{}: {cases} cases, no difference", part.name);
    }
    Ok(())
}

/// Levels are found by recursion, as they are defined, and a hostile chain has 16,384 of them: the work runs on a deep stack.
fn main() -> ExitCode {
    let arguments: Vec<String> = std::env::args().skip(1).collect();
    if let [task, side] = &arguments[..] {
        if task == pages::READ_BEYOND {
            pages::read_beyond(side);
            return ExitCode::SUCCESS;
        }
    }
    let worker = std::thread::Builder::new().stack_size(256 << 20).spawn(run_parts);
    match worker.expect("a thread").join() {
        Ok(Ok(())) => ExitCode::SUCCESS,
        Ok(Err(Stop::Difference(difference))) => {
            println!("{difference}");
            ExitCode::from(DIFFERENCE)
        }
        Ok(Err(Stop::Error(error))) => {
            eprintln!("compare: {error}");
            ExitCode::from(ERROR)
        }
        Err(_) => {
            eprintln!("compare: the comparison broke off");
            ExitCode::from(ERROR)
        }
    }
}
