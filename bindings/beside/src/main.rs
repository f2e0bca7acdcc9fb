//! Times readers of this library and of others that do the same work, or runs one of them. Their
//! results are compared. `table.py` calls this program, and makes a table of its output:
//!
//! - `beside list` lists the workloads, each with its text and its readers.
//! - `beside time TURNS` prints the best time of TURNS runs of each reader, in megabytes per
//!   second.
//! - `beside run WORK PLACE` runs the reader with index PLACE, and prints its allocations if they
//!   are counted.
//!
//! The environment variable `TEXTS` names the folder with the texts.
mod csv;
mod http;
mod ini;
mod json;
mod peers;
mod resp;
mod text;
mod toml;
mod works;

use std::hint::black_box;
use std::path::PathBuf;
use std::time::Instant;
use text::{Outcome, Text};
use works::{Reader, Work, WORKS};

/// The maximum length of a text that is read in all turns. Longer texts are read in fewer turns,
/// but at least three.
const ALL_TURNS: usize = 4 << 20;

fn text_of(work: &Work) -> Text {
    let folder = std::env::var("TEXTS").expect("TEXTS names the folder of the texts");
    Text::read(&PathBuf::from(folder).join(work.file))
}

/// Checks that all readers of a workload return the same result for its text. If the text is checked as
/// a whole, they must also reject the first half of it.
fn compare(work: &Work, text: &Text) {
    let damaged = Text::of(&text.bytes()[..text.bytes().len() / 2]);
    let outcomes = |text| work.readers.iter().map(|(_, read)| read(text)).collect::<Vec<Outcome>>();
    let (right, wrong) = (outcomes(text), outcomes(&damaged));
    assert!(right[0].count > 0, "{}: nothing was read", work.name);
    assert!(right.iter().all(|it| *it == right[0]), "{}: {right:?}", work.name);
    if work.is_whole {
        assert!(wrong.iter().all(|it| it.count == 0), "{}: first half: {wrong:?}", work.name);
    }
}

/// Returns the best time of each reader in seconds. The readers run alternately, `turns` times
/// each.
fn best(work: &Work, text: &Text, turns: usize) -> Vec<f64> {
    let mut best = vec![f64::INFINITY; work.readers.len()];
    for _ in 0..turns {
        for (best, (_, read)) in best.iter_mut().zip(work.readers) {
            let start = Instant::now();
            black_box(read(black_box(text)));
            *best = best.min(start.elapsed().as_secs_f64());
        }
    }
    best
}

fn time(turns: usize) {
    for (at, work) in WORKS.iter().enumerate() {
        let text = text_of(work);
        compare(work, &text);
        let turns = (turns * ALL_TURNS / text.bytes().len().max(ALL_TURNS)).max(3);
        let speeds: Vec<String> = best(work, &text, turns)
            .iter()
            .map(|time| format!("{:.1}", text.bytes().len() as f64 / time / 1e6))
            .collect();
        println!("{at} {}", speeds.join(" "));
    }
}

/// The call that valgrind counts for `table.py`.
#[no_mangle]
#[inline(never)]
fn counted_run(read: Reader, text: &Text) -> Outcome {
    read(text)
}

/// Runs a reader twice and counts the second run, so that caches are already filled. On the long
/// table, where no reader has a cache, it runs once.
fn run(work: &Work, place: usize) {
    let text = text_of(work);
    let (_, read) = work.readers[place];
    if text.bytes().len() < ALL_TURNS {
        black_box(read(&text));
    }
    let before = peers::requests_so_far();
    let out = counted_run(read, black_box(&text));
    if let (Some(before), Some(after)) = (before, peers::requests_so_far()) {
        println!("requests {} {}", after.0 - before.0, after.1 - before.1);
    }
    println!("text {}\nfound {} {}", text.bytes().len(), out.count, out.sum);
}

fn main() {
    let words: Vec<String> = std::env::args().skip(1).collect();
    let number = |at: usize| words.get(at).and_then(|it| it.parse().ok()).expect("a number");
    match words.first().map_or("", String::as_str) {
        "list" => WORKS.iter().for_each(|work| {
            let names: Vec<&str> = work.readers.iter().map(|(name, _)| *name).collect();
            println!("{}\t{}\t{}", work.name, work.file, names.join("\t"));
        }),
        "time" => time(number(1)),
        "run" => run(&WORKS[number(1)], number(2)),
        _ => panic!("list, time TURNS or run WORK PLACE"),
    }
}
