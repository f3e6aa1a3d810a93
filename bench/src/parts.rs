//! One edit of the batch whose name begins as told, for bench/parts to count.

extern crate library;

use syntax_edit::{Choices, raw};

mod batches;

fn main() {
    let name = std::env::args().nth(1).expect("the beginning of a batch's name");
    let all = batches::sorts().into_iter().chain(batches::by_calls());
    let case = all.into_iter().find(|it| it.name.starts_with(&name)).expect("a batch of that name");
    let (mut work, mut result) = (raw::Work::new(), vec![0; syntax_edit::MOST_ANSWER]);
    std::hint::black_box(raw::edit(Choices::default(), &case.batch, &mut result, work.slices()));
    println!("{}", case.name);
}
