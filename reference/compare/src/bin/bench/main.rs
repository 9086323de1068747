//! Times every proved call beside the second implementation's and beside a copy of
//! the words that it writes, in one run, and prints tables in Markdown:
//!
//!     bench [MILLISECONDS]           all tables; so long for each measure, else 300
//!     bench MILLISECONDS worst       inputs that are hard for a call, over ordinary ones
//!     bench MILLISECONDS CALL        the call alone, on each of its inputs
//!     bench grids FOLDER             files of the level sets, for programs of others
//!     bench count [GRID]             each call once, for callgrind; else the grids' names
//!
//! Calls on one input are made in turn; times are medians of the monotonic clock.

mod inputs;
mod instructions;
mod on_grids;
mod on_lists;
mod peers;
mod report;
mod tables;
mod timing;
mod worst;

use std::env;
use std::time::Duration;

use report::Report;
use timing::Bench;

/// Milliseconds for each measure.
const PATIENCE: u64 = 300;

fn main() {
    let words: Vec<String> = env::args().skip(1).collect();
    let word = |at: usize| words.get(at).map(String::as_str);
    match (word(0), word(1)) {
        (Some("grids"), Some(folder)) => return peers::write(folder),
        (Some("count"), name) => return instructions::count(name),
        _ => {}
    }
    let millis = word(0).map_or(PATIENCE, |text| text.parse().expect("milliseconds"));
    let bench = Bench {
        patience: Duration::from_millis(millis),
    };
    if word(1) == Some("worst") {
        return worst::print(&worst::all(&bench));
    }
    let only = word(1).map(str::to_string);
    let alone = only.is_some();
    let mut report = Report {
        bench,
        only,
        rows: Vec::new(),
    };
    tables::measure(&mut report);
    match alone {
        true => tables::list(&report),
        false => tables::print(&report, &worst::all(&bench)),
    }
}
