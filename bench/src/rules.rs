//! The two edge rules, and stronger rules first, on the same batches.

use std::hint::black_box;

use syntax_edit::{Choices, MOST_ANSWER, raw};

use crate::{
    batches::Case,
    time::{Contestant, Effort, medians, shown},
};

fn by(case: &Case, edge: u64, stronger: u64) -> Contestant<'_> {
    let (mut work, mut result) = (raw::Work::new(), vec![0; MOST_ANSWER]);
    Box::new(move |clock| {
        clock.time(|| raw::edit(Choices { edge, stronger }, black_box(&case.batch), &mut result, work.slices()));
    })
}

/// A table of batches, edited by each rule, and by rule 0 with stronger rules first.
pub fn table(cases: &[Case], effort: Effort) {
    println!("{:38} {:>8} {:>6} {:>9} {:>9} {:>6} {:>9} {:>6}", "", "elements", "calls", "rule 0", "rule 1", "ratio", "stronger", "ratio");
    for case in cases {
        let [zero, one, on] = medians([by(case, 0, 0), by(case, 1, 0), by(case, 0, 1)], effort);
        println!(
            "{:38} {:8} {:6} {:>9} {:>9} {:6.2} {:>9} {:6.2}",
            case.name,
            case.elements,
            case.calls,
            shown(zero),
            shown(one),
            one / zero,
            shown(on),
            on / zero
        );
    }
    println!();
}
