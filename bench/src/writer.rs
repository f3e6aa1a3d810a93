//! The writer beside a plain copy of what it writes.

use std::hint::black_box;

use syntax_edit::raw::{DRAFT, WriterWork, write};

use crate::{
    batches::Case,
    time::{Contestant, Effort, medians, shown},
};

/// `syntax_write`: the lists are laid out, judged and copied, and the work slices are cleared.
fn ours(case: &Case) -> Contestant<'_> {
    let (mut work, mut destination) = (WriterWork::new(), vec![0; DRAFT]);
    let builder = case.builder.as_ref().expect("a batch that is written from lists");
    Box::new(move |clock| {
        clock.time(|| write(black_box(builder.lists()), &mut destination, work.slices()));
    })
}

/// So many copies are timed at once: one alone takes no longer than the clock.
const COPIES: usize = 64;

fn copies(case: &Case) -> Contestant<'_> {
    let mut destination = vec![0; case.batch.len()];
    Box::new(move |clock| clock.time(|| (0..COPIES).for_each(|_| black_box(&mut destination).copy_from_slice(black_box(&case.batch)))))
}

/// The batch copied to the draft and to the destination, every work slice set to zero.
fn floor(case: &Case) -> Contestant<'_> {
    let (mut work, mut destination) = (WriterWork::new(), vec![0; case.batch.len()]);
    Box::new(move |clock| {
        clock.time(|| {
            let it = work.slices();
            it.draft[..case.batch.len()].copy_from_slice(black_box(&case.batch));
            black_box(&mut destination).copy_from_slice(black_box(&it.draft[..case.batch.len()]));
            black_box(it.draft).fill(0);
            [it.table, it.source].map(|it| black_box(it).fill(0));
        })
    })
}

/// A table of batches, written again from their lists.
pub fn table(what: &str, cases: &[Case], effort: Effort) {
    println!("{what:38} {:>8} {:>6} {:>6} {:>9} {:>9} {:>8}", "elements", "calls", "bytes", "ours", "/memcpy", "/floor");
    let row = |case: &Case| {
        let [ours, copies, floor] = medians([ours(case), copies(case), floor(case)], effort);
        let (name, bytes, copy) = (&case.name, case.batch.len(), copies / COPIES as f64);
        println!("{name:38} {:8} {:6} {bytes:6} {:>9} {:9.1} {:8.2}", case.elements, case.calls, shown(ours), ours / copy, ours / floor);
        (bytes as f64, ours)
    };
    let rows = cases.iter().map(row).collect::<Vec<_>>();
    if what.contains("doubled") {
        let each = rows.windows(2).map(|it| format!("{:.2}", (it[1].1 / it[0].1).ln() / (it[1].0 / it[0].0).ln()));
        println!("  growth with the bytes: {}", each.collect::<Vec<_>>().join("  "));
    }
    println!();
}
