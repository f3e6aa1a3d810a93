//! Where the functions of the Rust stand that are watched.

use rowan::watch::{Lines, Places};

const SYNTAX_EDITOR: &str = include_str!("syntax_editor.rs");
const MAPPING: &str = include_str!("syntax_editor/mapping.rs");
const EDIT_ALGO: &str = include_str!("syntax_editor/edit_algo.rs");

/// The lines of one function, from its name to the closing brace that is indented as it is.
fn lines_of(file: &'static str, source: &str, name: &str) -> Lines {
    let lines = source.lines().collect::<Vec<_>>();
    let head = format!("fn {name}(");
    let start = lines.iter().position(|it| it.contains(&head)).unwrap_or_else(|| panic!("{file} has no {name}"));
    let indent = lines[start].len() - lines[start].trim_start().len();
    let close = format!("{}}}", " ".repeat(indent));
    let len = lines[start..].iter().position(|it| *it == close).unwrap_or_else(|| panic!("{name} has no end"));
    Lines { file, lines: start as u32 + 1..(start + len) as u32 + 2 }
}

/// Where the functions stand that the stand-in watches.
pub fn places() -> Places {
    let mapping = |name| lines_of("syntax_editor/mapping.rs", MAPPING, name);
    let edit_algo = |name| lines_of("syntax_editor/edit_algo.rs", EDIT_ALGO, name);
    Places { upmap_to_ancestor: mapping("upmap_to_ancestor"), upmap_element: mapping("upmap_element"), execute: edit_algo("execute") }
}

/// Where `Change::target_range` stands. All that can panic there is its look for the first child of a first-child position.
pub fn target_range() -> Lines {
    lines_of("syntax_editor.rs", SYNTAX_EDITOR, "target_range")
}
