//! The benchmark of crate and library, in one process. `bench times REPEATS` measures, `bench growth REPEATS FILE`
//! measures over the number of entries and writes a plot, `bench outsiders REPEATS FILE` measures two other trees where
//! they were built in, `bench stack` looks at the stack, and `bench run NAME TIMES` runs one measured function and no
//! clock.

#[path = "bench_load.rs"]
mod load;
#[path = "bench_measure.rs"]
mod measure;
#[cfg(outsiders)]
#[path = "bench_outsiders.rs"]
mod outsiders;
#[path = "bench_plain.rs"]
mod plain;
#[path = "bench_plot.rs"]
mod plot;
#[allow(dead_code)]
#[path = "driver/random.rs"]
mod random;
#[path = "bench_scene.rs"]
mod scene;
#[path = "bench_sides.rs"]
mod sides;
#[path = "bench_stack.rs"]
mod stack;

use measure::Pair;
use plot::Field;
use scene::Scene;

/// The load of the measurements: entries, queries, slots, and the queries that go through the entry.
const ENTRIES: u64 = 4000;
const QUERIES: u64 = 10000;
const SLOTS: usize = 4095;
const ENTERED: usize = 100;

/// The numbers of entries at which growth is measured.
const GROWTH: [u64; 7] = [100, 200, 400, 800, 1600, 3200, 4095];

/// Prints a row of the table of times.
fn row(what: &str, pair: &Pair, count: usize) {
    let (least, median) = (pair.minima().each(count), pair.medians().each(count));
    println!(
        "| {what} | {:.1} | {:.1} | {:.2} | {:.1} | {:.1} | {:.2} |",
        least.library,
        least.other,
        least.ratio(),
        median.library,
        median.other,
        median.ratio()
    );
}

/// Measures the load of 4,000 entries.
fn times(repeats: usize) {
    let scene = Scene::new(ENTRIES, QUERIES, SLOTS);
    println!(
        "hits of a query on average: {:.2}; repetitions: {repeats}; nanoseconds of processor time",
        scene.compare()
    );
    println!("both checks say the same of {} pools with a word changed", Scene::new(100, 1, 120).compare_checks());
    println!("| what | library, least | other, least | ratio | library, median | other, median | ratio |");
    println!("|---|---|---|---|---|---|---|");
    let edits = 2 * ENTRIES as usize;
    row("feed of inserts and deletes, a record", &scene.feeds(true, repeats), edits);
    row("feed of the inserts alone, a record", &scene.feeds(false, repeats), edits / 2);
    let walks = scene.walks(repeats);
    row("walk, a query", &walks, QUERIES as usize);
    row("walk by records, beside by words", &scene.records(repeats), QUERIES as usize);
    row("query entry with its check, a query", &scene.entries(ENTERED, repeats), ENTERED);
    row("query entry by records, beside by words", &scene.record_entries(ENTERED, repeats), ENTERED);
    let checks = scene.checks(10 * repeats);
    row("check, beside a plain check in Rust", &checks, 1);
    let walk = walks.minima().each(QUERIES as usize).library;
    println!("one check is as long as {:.0} walks", checks.minima().library / walk);
}

/// Measures over the number of entries, and writes the plot. The fewer entries, the more often they are fed, so that each
/// row is measured for as long.
fn growth(repeats: usize, file: &str) {
    let mut fields = [
        Field { title: "feed, ns a record", other: "crate", points: Vec::new() },
        Field { title: "walk, ns a query", other: "crate", points: Vec::new() },
        Field { title: "check, µs", other: "plain Rust", points: Vec::new() },
    ];
    println!("| entries | hits | feed | crate | ratio | walk | crate | ratio | check | plain | ratio |");
    println!("|---|---|---|---|---|---|---|---|---|---|---|");
    for entries in GROWTH {
        let scene = Scene::new(entries, QUERIES / 5, entries as usize);
        let hits = scene.compare();
        let feeds = repeats * SLOTS / entries as usize;
        let feed = scene.feeds(true, feeds).minima().each(2 * entries as usize);
        let walk = scene.walks(repeats).minima().each(QUERIES as usize / 5);
        let check = scene.checks(10 * repeats).minima().each(1000);
        print!("| {entries} | {hits:.1} |");
        for (field, both) in fields.iter_mut().zip([feed, walk, check]) {
            print!(" {:.1} | {:.1} | {:.2} |", both.library, both.other, both.ratio());
            field.points.push((entries, both));
        }
        println!();
    }
    std::fs::write(file, plot::svg(&fields)).expect("the plot can be written");
}

/// Measures the walk beside the outsiders, one of which keeps its rows in the file.
#[cfg(outsiders)]
fn outside(repeats: usize, file: &str) {
    let scene = Scene::new(ENTRIES, QUERIES, SLOTS);
    for (what, pair) in outsiders::measure(&scene, file, repeats) {
        row(what, &pair, QUERIES as usize);
    }
}

/// A number among the words after the program's name.
fn number(words: &[String], nth: usize) -> usize {
    words.get(nth).and_then(|word| word.parse().ok()).expect("a number")
}

/// Does what the first word says.
fn main() {
    let words: Vec<String> = std::env::args().skip(1).collect();
    match words.first().map(String::as_str) {
        Some("times") => times(number(&words, 1)),
        Some("growth") => growth(number(&words, 1), &words[2]),
        #[cfg(outsiders)]
        Some("outsiders") => outside(number(&words, 1), &words[2]),
        Some("stack") => stack::main(),
        Some("run") => Scene::new(ENTRIES, QUERIES, SLOTS).run(&words[1], number(&words, 2)),
        _ => panic!("bench times REPEATS, growth REPEATS FILE, stack, or run NAME TIMES"),
    }
}
