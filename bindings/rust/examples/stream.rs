//! Plays batches through the static library:   stream [--stream | --accounts | --shares] [EDGE [CHOICE]]
//!
//! Without a word it reads one batch and prints the printed form. With `--stream` it reads batches, each with its length in front (a 32-bit
//! little-endian word), and answers each with two parts, each with its length in front: the printed form, and what `find_element` gives, as
//! `find 0:3 1: 2:` (the number asked for, a colon, the element found or nothing) if the batch was accepted. Of a batch of up to 64 elements every
//! number is asked for, and one beyond the last; of a larger one as many, spread over it. With `--accounts` the first part is what the account program
//! prints, told from the fates that the library gives as values, and the second is empty; with `--shares` what the share program prints. EDGE is the edge rule and CHOICE that of stronger rules first, 0 without one.

use std::{
    fmt::Write as _,
    io::{self, Read, Write},
};

use syntax_edit::{Choices, Editor, Fate, Unaccounted};

const MOST_BYTES: usize = 65_536;

fn printed(editor: &mut Editor, batch: &[u8]) -> String {
    match editor.edit_bytes(batch) {
        Ok(answer) => answer.to_string(),
        Err(refusal) => format!("refused {}\n", refusal.number()),
    }
}

fn accounted(editor: &mut Editor, batch: &[u8]) -> String {
    match editor.account_bytes(batch) {
        Ok(fates) => fates.iter().enumerate().fold(String::new(), |mut out, (number, fate)| {
            let _ = match fate {
                Fate::Own => writeln!(out, "{number} own"),
                Fate::Dependent(change) => writeln!(out, "{number} dependent {change}"),
                Fate::Discarded(change) => writeln!(out, "{number} discarded {change}"),
                Fate::Withdrawn(change) => writeln!(out, "{number} withdrawn {change}"),
            };
            out
        }),
        Err(Unaccounted::Overlap(first, second)) => format!("overlap {first} {second}\n"),
        Err(Unaccounted::Refused(refusal)) => format!("{}\n", refusal.number()),
    }
}

fn shared(editor: &mut Editor, batch: &[u8]) -> String {
    match editor.share_bytes(batch) {
        Ok(share) => format!("share {} {}\n", share.thousandths, share.remainder),
        Err(refusal) => format!("refused {}\n", refusal.number()),
    }
}

fn finds(editor: &mut Editor, batch: &[u8]) -> String {
    let elements = u32::from_le_bytes([batch[4], batch[5], batch[6], batch[7]]);
    let mut out = "find".to_owned();
    for number in (0..=elements).step_by(1 + elements as usize / 65) {
        let found = editor.find_element(batch, number).expect("the batch was accepted");
        let _ = write!(out, " {number}:{}", found.map_or(String::new(), |it| it.to_string()));
    }
    out
}

fn next_batch(input: &mut impl Read) -> io::Result<Option<Vec<u8>>> {
    let mut length = [0; 4];
    if input.read(&mut length[..1])? == 0 {
        return Ok(None);
    }
    input.read_exact(&mut length[1..])?;
    let mut batch = vec![0; u32::from_le_bytes(length) as usize];
    input.read_exact(&mut batch)?;
    Ok(Some(batch))
}

fn write_part(output: &mut impl Write, part: &str) -> io::Result<()> {
    output.write_all(&(part.len() as u32).to_le_bytes())?;
    output.write_all(part.as_bytes())
}

fn main() -> io::Result<()> {
    let mut numbers = std::env::args().skip(1).filter_map(|it| it.parse().ok());
    let (edge, stronger) = (numbers.next().unwrap_or(0), numbers.next().unwrap_or(0));
    let mut editor = Editor::by(Choices { edge, stronger });
    let (mut input, mut output) = (io::stdin().lock(), io::BufWriter::new(io::stdout().lock()));
    let word = std::env::args().nth(1);
    if !matches!(word.as_deref(), Some("--stream" | "--accounts" | "--shares")) {
        let mut batch = Vec::new();
        input.take(MOST_BYTES as u64).read_to_end(&mut batch)?;
        return output.write_all(printed(&mut editor, &batch).as_bytes());
    }
    while let Some(batch) = next_batch(&mut input)? {
        let batch = &batch[..batch.len().min(MOST_BYTES)];
        let alone = match word.as_deref() {
            Some("--accounts") => Some(accounted(&mut editor, batch)),
            Some("--shares") => Some(shared(&mut editor, batch)),
            _ => None,
        };
        if let Some(text) = alone {
            write_part(&mut output, &text)?;
            write_part(&mut output, "")?;
            output.flush()?;
            continue;
        }
        let answer = printed(&mut editor, batch);
        write_part(&mut output, &answer)?;
        let found = if answer.starts_with("ok") { finds(&mut editor, batch) } else { String::new() };
        write_part(&mut output, &found)?;
        output.flush()?;
    }
    Ok(())
}
