//! A later call of a series beside an edit of the same batch.

use std::hint::black_box;

use syntax_edit::{Choices, MOST_ANSWER, raw};

use crate::{
    batches::Case,
    time::{Contestant, Effort, medians, shown},
};

/// So many bookmarks, the least and the most among them.
const BOOKMARKS: [usize; 3] = [0, 16, 256];
const NODE: u32 = 1 << 31;

fn edit(case: &Case) -> Contestant<'_> {
    let (mut work, mut result) = (raw::Work::new(), vec![0; MOST_ANSWER]);
    Box::new(move |clock| {
        clock.time(|| raw::edit(Choices::default(), black_box(&case.batch), &mut result, work.slices()));
    })
}

/// The later call; before the clock starts the memory is put back to what it was.
fn follow(case: &Case, bookmarks: usize) -> Contestant<'_> {
    let (tree, words) = memory(case, bookmarks);
    let (mut work, mut result) = (raw::Work::new(), vec![0; MOST_ANSWER]);
    let (mut tree_now, mut words_now) = (tree.clone(), words.clone());
    Box::new(move |clock| {
        tree_now.copy_from_slice(&tree);
        words_now.copy_from_slice(&words);
        let memory = raw::Memory { tree: &mut tree_now, bookmarks: &mut words_now };
        let told = clock.time(|| raw::series_follow(Choices::default(), black_box(&case.batch), memory, &mut result, work.slices()));
        assert!(told > 0, "{}: {told}", case.name);
    })
}

/// The memory that a batch goes on: its tree 0, with bookmarks spread over the elements, several on one where there are not enough of them.
fn memory(case: &Case, bookmarks: usize) -> (Vec<u8>, Vec<u32>) {
    let lists = case.builder.as_ref().expect("a batch that is written from lists").lists();
    let paths = paths(lists.kinds, lists.measures);
    let n = paths.len();
    let text = lists.kinds.iter().zip(lists.measures).take(n).filter(|it| it.0 & NODE == 0).map(|it| *it.1).sum::<u32>();
    let words = [n as u32, text].into_iter().chain(lists.kinds[..n].iter().chain(&lists.measures[..n]).copied());
    let mut tree = words.flat_map(u32::to_le_bytes).chain(lists.text[..text as usize].iter().copied()).collect::<Vec<_>>();
    tree.resize(raw::MOST_TREE, 0);
    let mut words = vec![0; 1 + raw::SLOT * raw::MOST_BOOKMARKS];
    words[0] = bookmarks as u32;
    for (i, slot) in words[1..].chunks_exact_mut(raw::SLOT).take(bookmarks).enumerate() {
        let path = &paths[i * n / bookmarks];
        (slot[0], slot[1]) = (i as u32, path.len() as u32);
        slot[2..2 + path.len()].copy_from_slice(path);
    }
    (tree, words)
}

/// The paths of the first tree's elements, in preorder.
fn paths(kinds: &[u32], measures: &[u32]) -> Vec<Vec<u32>> {
    let (mut paths, mut open): (Vec<Vec<u32>>, Vec<(u32, u32)>) = (Vec::new(), Vec::new());
    for (&kind, &measure) in kinds.iter().zip(measures) {
        paths.push(open.iter().map(|it| it.0).collect());
        if kind & NODE != 0 && measure > 0 {
            open.push((0, measure));
            continue;
        }
        while let Some((child, of)) = open.pop() {
            if child + 1 < of {
                open.push((child + 1, of));
                break;
            }
        }
        if open.is_empty() {
            break;
        }
    }
    paths
}

/// A table of batches, edited, and as later calls with more and more bookmarks.
pub fn table(what: &str, cases: &[Case], effort: Effort) {
    println!("{what:38} {:>8} {:>6} {:>9} {:>30}", "elements", "calls", "edit", "a later call / edit, bookmarks");
    println!("{:73}{}", "", BOOKMARKS.map(|it| format!("{it:>7}")).concat());
    for case in cases {
        let [none, some, most] = BOOKMARKS.map(|it| follow(case, it));
        let [edit, follows @ ..] = medians([edit(case), none, some, most], effort);
        let ratios = follows.map(|it| format!("{:7.2}", it / edit)).concat();
        println!("{:38} {:8} {:6} {:>9} {ratios:>30}", case.name, case.elements, case.calls, shown(edit));
    }
    println!();
}
