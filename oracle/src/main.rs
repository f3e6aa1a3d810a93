//! The oracle: the syntax editor of rust-analyzer behind document 01's batches and printed form.
//!
//! `oracle [--shared-in-trees | --shared-in-batch] < batch` prints the answer. With `--stream` it reads batches and writes answers, each with its
//! length in front. What is shared says sharing.rs.

use std::io::{self, Read, Write};

use the_rust::{play, sharing::Sharing};

/// The next batch of the stream, or none at its end.
fn next_batch(input: &mut impl Read) -> io::Result<Option<Vec<u8>>> {
    let mut len = [0; 4];
    if input.read(&mut len[..1])? == 0 {
        return Ok(None);
    }
    input.read_exact(&mut len[1..])?;
    let mut batch = vec![0; u32::from_le_bytes(len) as usize];
    input.read_exact(&mut batch)?;
    Ok(Some(batch))
}

fn write_part(output: &mut impl Write, part: &str) -> io::Result<()> {
    output.write_all(&(part.len() as u32).to_le_bytes())?;
    output.write_all(part.as_bytes())
}

fn main() -> io::Result<()> {
    let (mut stream, mut sharing) = (false, Sharing::Nothing);
    for argument in std::env::args().skip(1) {
        match argument.as_str() {
            "--stream" => stream = true,
            "--shared-in-trees" => sharing = Sharing::InTrees,
            "--shared-in-batch" => sharing = Sharing::InBatch,
            _ => return Err(io::Error::other(format!("no such argument: {argument}"))),
        }
    }
    play::watch_edits();
    play::catch_panics();
    let (mut input, mut output) = (io::stdin().lock(), io::stdout().lock());
    if !stream {
        let mut batch = Vec::new();
        input.read_to_end(&mut batch)?;
        return output.write_all(play::answer(&batch, sharing).printed.as_bytes());
    }
    while let Some(batch) = next_batch(&mut input)? {
        let answer = play::answer(&batch, sharing);
        write_part(&mut output, &answer.printed)?;
        write_part(&mut output, &answer.remark)?;
        output.flush()?;
    }
    Ok(())
}
