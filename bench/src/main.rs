//! Compares the speed of the library's parsers with nom 7 and hand-written loops, and prints a
//! table in Markdown.
//!
//! All readers of a text run alternately, and each reader's best time counts. Their results are
//! compared. The table has ratios: the library's time to that of nom 7 and of the loop, and the
//! library's time per byte at 4 MiB to that at 64 KiB. `counts.py` runs one reader once with this
//! program, and counts its instructions.
mod by_hand;
mod by_nom;
mod library;
mod outcome;
#[cfg(feature = "requests")]
mod requests;
mod texts;
mod workloads;

use outcome::Outcome;
use std::hint::black_box;
use std::time::Instant;
use workloads::{Reader, Workload};

const SMALL: usize = 1 << 16;
const MIDDLE: usize = 1 << 20;
const LARGE: usize = 1 << 22;

/// Returns the best time of each reader in seconds, and their common result.
fn best(text: &[u8], readers: &[&Reader], turns: usize, name: &str) -> (Vec<f64>, Outcome) {
    let want = readers[0](text);
    let mut best = vec![f64::MAX; readers.len()];
    for _ in 0..turns {
        for (least, reader) in best.iter_mut().zip(readers) {
            let start = Instant::now();
            let got = reader(black_box(text));
            let time = start.elapsed().as_secs_f64();
            assert_eq!(black_box(got), want, "{name}: the readers differ");
            *least = least.min(time);
        }
    }
    (best, want)
}

/// One row of the table.
fn row(workload: &Workload, turns: usize) -> String {
    let mut readers = vec![&workload.nom, &workload.library];
    readers.extend(&workload.hand);
    let text = (workload.text)(MIDDLE);
    let (times, told) = best(&text, &readers, turns, &workload.name);
    assert!(told.count > 0 || text.is_empty(), "{}: nothing was read", workload.name);
    let hand = times.get(2).map_or(String::new(), |hand| format!("{:.2}", times[1] / hand));
    let growth = |size: usize, turns: usize| {
        let text = (workload.text)(size);
        let (times, _) = best(&text, &[&workload.library], turns, &workload.name);
        times[0] / text.len() as f64
    };
    let growth = growth(LARGE, turns / 3 + 1) / growth(SMALL, turns * 8);
    format!("| {} | {:.2} | {hand} | {growth:.2} |", workload.name, times[1] / times[0])
}

/// Measures how the time grows for a literal whose prefixes occur everywhere: 39 times `a` and a
/// `b`, in input that contains only `a`.
fn hard_search(turns: usize) -> String {
    let literal: &'static [u8] = b"aaaaaaaaaaaaaaaaaaaaaaaaaaaaaaaaaaaaaaab";
    let time = |size: usize, reader: Reader| {
        let text = vec![b'a'; size];
        let want = Outcome { count: 0, sum: 0, left: size as u64 };
        let (times, told) = best(&text, &[&reader], turns / 4 + 2, "a literal of 39 a");
        assert_eq!(told, want);
        times[0] / size as f64
    };
    let reader = || -> Reader { Box::new(move |text| library::until(text, literal)) };
    let beside = time(MIDDLE, reader()) / time(MIDDLE, Box::new(move |t| by_nom::until(t, literal)));
    let growth = time(LARGE, reader()) / time(SMALL, reader());
    format!("| up to 39 `a` and a `b`, in a text of `a` | {beside:.2} | | {growth:.2} |")
}

/// Runs a reader once. `counts.py` counts the instructions of this function.
#[no_mangle]
#[inline(never)]
fn counted_run(reader: &Reader, text: &[u8]) -> Outcome {
    reader(text)
}

/// Runs one reader of a workload once, selected by its index, and prints the size of the text in
/// bytes, and the number of allocations if they are counted.
fn run_once(name: &str, place: usize) {
    let workload = workloads::named(name).expect("a workload");
    let text = (workload.text)(MIDDLE);
    let readers = [Some(&workload.library), Some(&workload.nom), workload.hand.as_ref()];
    let reader = readers[place].expect("a reader");
    #[cfg(feature = "requests")]
    let before = requests::so_far();
    let told = counted_run(reader, black_box(&text));
    #[cfg(feature = "requests")]
    {
        let (requests, bytes) = requests::so_far();
        println!("requests {} {}", requests - before.0, bytes - before.1);
    }
    assert!(told.count > 0, "{name}: nothing was read");
    println!("text {}", text.len());
}

/// Prints the names of the workloads, and the number of readers of each.
fn list() {
    for workload in workloads::all() {
        println!("{} {}", 2 + usize::from(workload.hand.is_some()), workload.name);
    }
}

/// Returns the load average of the last minute.
fn load() -> String {
    let said = std::fs::read_to_string("/proc/loadavg").unwrap_or_default();
    said.split(' ').next().unwrap_or("unknown").to_string()
}

/// Times the workloads whose names contain a word. Prints each name when its workload starts, and the
/// table at the end, with the load of the machine.
fn time(turns: usize, only: &str) {
    let begun = load();
    let mut rows = Vec::new();
    for workload in workloads::all().iter().filter(|w| w.name.contains(only)) {
        eprintln!("{}", workload.name);
        rows.push(row(workload, turns));
    }
    if only.is_empty() {
        rows.push(hard_search(turns));
    }
    let cpus = std::thread::available_parallelism().map_or(0, usize::from);
    println!(
        "{turns} turns on {cpus} processors. The load average was {begun} at the start and {} at the end.\n",
        load()
    );
    println!("| Workload | nom 7 | loop | 4 MiB |");
    println!("|---|---|---|---|\n{}", rows.join("\n"));
}

fn main() {
    let words: Vec<String> = std::env::args().skip(1).collect();
    let word = |at: usize| words.get(at).map_or("", String::as_str);
    match word(0) {
        "list" => list(),
        "run" => run_once(word(2), word(1).parse().expect("the index of a reader")),
        turns => time(turns.parse().unwrap_or(60), word(1)),
    }
}
