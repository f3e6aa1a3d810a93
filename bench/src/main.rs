//! The static library beside the Rust `SyntaxEditor` over two stand-ins for rowan, on the same batches:   bench [--quick] [--writer] [--rules] [--series] [NAME]...
//! NAME is the beginning of a row's name; without one, all rows, and those of the edge rules, of series and of the writer behind them; with `--rules`, `--series` or `--writer` these alone. bench/README.md says what each column counts.

use std::{env, hint::black_box};

use syntax_edit::{Choices, Editor, raw};

use batches::Case;
use time::{Clock, Contestant, Effort, FULL, QUICK, medians, shown};

mod batches;
mod rules;
mod series;
mod time;
mod writer;

/// The Rust over one stand-in.
struct Peer {
    name: &'static str,
    /// Whether it tells discarded changes and climb steps; else it is not watched, and both are printed as nothing.
    watched: bool,
    printed: fn(&[u8]) -> String,
    /// `finish` alone: the trees are built and the calls recorded before.
    finish: fn(&[u8], &mut Clock),
    /// The batch's bytes read, trees built, calls recorded, and `finish`.
    whole: fn(&[u8], &mut Clock),
}

macro_rules! peer {
    ($the_rust:ident, $watched:expr) => {
        Peer {
            name: stringify!($the_rust),
            watched: $watched,
            printed: |batch| $the_rust::play::answer(batch, $the_rust::sharing::Sharing::Nothing).printed,
            finish: |batch, clock| {
                let recorded = $the_rust::play::Recorded::new(batch);
                drop(clock.time(|| recorded.finish()));
            },
            whole: |batch, clock| drop(clock.time(|| $the_rust::play::Recorded::new(black_box(batch)).finish())),
        }
    };
}

const PEERS: [Peer; 3] = [peer!(numbered, true), peer!(green, false), peer!(straight, false)];

/// The times of one batch, in nanoseconds. `finish` and `whole` are those of the peers.
struct Times {
    calls: usize,
    ours: f64,
    floor: f64,
    finish: [f64; 3],
    whole: [f64; 3],
}

fn ours(batch: &[u8]) -> Contestant<'_> {
    let (mut work, mut result) = (raw::Work::new(), vec![0; syntax_edit::MOST_ANSWER]);
    Box::new(move |clock| {
        clock.time(|| raw::edit(Choices::default(), black_box(batch), &mut result, work.slices()));
    })
}

/// What a call of ours cannot do without: the batch read once, the answer written once, every work slice set to zero.
fn floor(batch: &[u8]) -> Contestant<'_> {
    let (mut work, mut answer) = (raw::Work::new(), vec![0; syntax_edit::MOST_ANSWER]);
    let length = raw::edit(Choices::default(), batch, &mut answer, work.slices());
    answer.truncate(length as usize);
    let (mut read, mut written) = (vec![0; batch.len()], vec![0; answer.len()]);
    Box::new(move |clock| {
        clock.time(|| {
            black_box(&mut read).copy_from_slice(black_box(batch));
            black_box(&mut written).copy_from_slice(black_box(&answer));
            work.slices().into_iter().for_each(|it| black_box(it).fill(0));
        });
    })
}

/// A printed answer as the Rust tells it, which knows no rule numbers: `changed` lines have their first number alone.
fn without_rules(printed: &str) -> String {
    let told = |line: &str| match line.strip_prefix("changed ").and_then(|it| it.split_once(' ')) {
        Some((element, _)) => format!("changed {element}\n"),
        None => format!("{line}\n"),
    };
    printed.lines().map(told).collect()
}

/// All must print the same before anything is timed, but for rule numbers and for what is not watched: the last two numbers of the first line.
fn agree(case: &Case) {
    let printed = match Editor::new().edit_bytes(&case.batch) {
        Ok(answer) => without_rules(&answer.to_string()),
        Err(refusal) => panic!("{}: {refusal}", case.name),
    };
    let unwatched = |it: &str| {
        let (first, rest) = it.split_once('\n').expect("a first line");
        let told = first.split(' ').take(5).collect::<Vec<_>>().join(" ");
        format!("{told}\n{rest}")
    };
    for peer in &PEERS {
        let rust = (peer.printed)(&case.batch);
        let same = if peer.watched { rust == printed } else { unwatched(&rust) == unwatched(&printed) };
        assert!(same, "{}: the answers differ over the stand-in {}", case.name, peer.name);
    }
}

fn times(case: &Case, effort: Effort) -> Times {
    agree(case);
    let batch = case.batch.as_slice();
    let finish = |i: usize| -> Contestant<'_> { Box::new(move |clock| (PEERS[i].finish)(batch, clock)) };
    let whole = |i: usize| -> Contestant<'_> { Box::new(move |clock| (PEERS[i].whole)(batch, clock)) };
    let contestants = [ours(batch), floor(batch), finish(0), finish(1), finish(2), whole(0), whole(1), whole(2)];
    let [ours, floor, f0, f1, f2, w0, w1, w2] = medians(contestants, effort);
    Times { calls: case.calls, ours, floor, finish: [f0, f1, f2], whole: [w0, w1, w2] }
}

fn head(what: &str) {
    println!("{:74}{:29} {}", "", "finish: times as long as ours", "whole: times as long as ours");
    print!("{what:38} {:>8} {:>6} {:>9} {:>8}", "elements", "calls", "ours", "/floor");
    PEERS.iter().chain(&PEERS).for_each(|peer| print!(" {:>9}", peer.name));
    println!();
}

fn row(case: &Case, effort: Effort) -> Times {
    let it = times(case, effort);
    print!("{:38} {:8} {:6} {:>9} {:8.2}", case.name, case.elements, case.calls, shown(it.ours), it.ours / it.floor);
    it.finish.iter().chain(&it.whole).for_each(|time| print!(" {:9.2}", time / it.ours));
    println!();
    it
}

/// How a time grows from one row to the next, each with twice as much of something: 1.0 is in proportion, 2.0 the square.
fn growth(rows: &[Times]) {
    let shown = |name: &str, time: &dyn Fn(&Times) -> f64| {
        let each = rows.windows(2).map(|it| format!("{:.2}", (time(&it[1]) / time(&it[0])).log2()));
        println!("  doublings, {name:16} {}", each.collect::<Vec<_>>().join("  "));
    };
    shown("ours:", &|it| it.ours);
    for (i, peer) in PEERS.iter().enumerate() {
        shown(&format!("finish {}:", peer.name), &|it| it.finish[i]);
    }
}

/// The least, the most and the median of each ratio.
fn ranges<'a>(what: &str, rows: impl Iterator<Item = &'a Times> + Clone) {
    let range = |name: &str, ratio: &dyn Fn(&Times) -> f64| {
        let mut ratios = rows.clone().map(ratio).collect::<Vec<_>>();
        ratios.sort_by(f64::total_cmp);
        println!("  {name:16} {:6.2} to {:6.2}, median {:6.2}", ratios[0], ratios[ratios.len() - 1], ratios[ratios.len() / 2]);
    };
    println!("{what}, times as long as ours:");
    for (i, peer) in PEERS.iter().enumerate() {
        range(&format!("finish {}", peer.name), &|it| it.finish[i] / it.ours);
    }
    for (i, peer) in PEERS.iter().enumerate() {
        range(&format!("whole {}", peer.name), &|it| it.whole[i] / it.ours);
    }
}

fn main() {
    let (options, names): (Vec<_>, Vec<_>) = env::args().skip(1).partition(|it| it.starts_with("--"));
    let effort = if options.iter().any(|it| it == "--quick") { QUICK } else { FULL };
    numbered::play::watch_edits();
    let tables = [
        ("", batches::sorts()),
        ("Elements doubled, 32 calls", batches::by_elements()),
        ("Calls doubled, 1,024 elements", batches::by_calls()),
        ("Calls doubled, 2,048 elements", batches::few_calls()),
        ("Loads (docs/LOAD.md)", batches::loads()),
    ];
    if options.iter().any(|it| it == "--writer") {
        return tables[..2].iter().for_each(|(what, cases)| writer::table(what, cases, effort));
    }
    if options.iter().any(|it| it == "--rules") {
        return rules::table(&tables[0].1, effort);
    }
    if options.iter().any(|it| it == "--series") {
        return tables[..2].iter().for_each(|(what, cases)| series::table(what, cases, effort));
    }
    if !names.is_empty() {
        head("");
        let named = tables.iter().flat_map(|(_, cases)| cases).filter(|case| names.iter().any(|it| case.name.starts_with(it)));
        return named.for_each(|it| drop(row(it, effort)));
    }
    let mut all = Vec::new();
    for (what, cases) in &tables {
        head(what);
        let rows = cases.iter().map(|it| row(it, effort)).collect::<Vec<_>>();
        if what.contains("doubled") {
            growth(&rows);
        }
        println!();
        all.extend(rows);
    }
    ranges("Rows with 64 calls and more", all.iter().filter(|it| it.calls >= 64));
    ranges("All rows", all.iter());
    println!();
    rules::table(&tables[0].1, effort);
    tables[..2].iter().for_each(|(what, cases)| series::table(what, cases, effort));
    tables[..2].iter().for_each(|(what, cases)| writer::table(what, cases, effort));
}
