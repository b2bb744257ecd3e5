//! `dumps` without a word: the batch of `jollanqe` for the word `vcd`, so that the comparison can
//! be tried where no `jollanqe` is at hand.

use std::fs;
use std::io::{self, BufRead, Read, Write};

use crate::judge::{self, Form};

const CHUNK: usize = 65_536;

/// What `vcd CONFIG FILE [lines | pgm [TOP] | png [TOP]]` writes; `-` is standard input.
pub fn vcd(configuration: &str, file: &str, form: &[&str]) -> io::Result<Vec<u8>> {
    let form = Form::of(form).ok_or_else(|| io::Error::other("lines, pgm [TOP] or png [TOP]"))?;
    let configuration = fs::read(configuration)?;
    let dump = if file == "-" {
        input()?
    } else {
        fs::read(file)?
    };
    Ok(judge::judge(&configuration, &dump, form))
}

/// Standard input, read by chunks: a datagram is lost but for what a read asks for.
fn input() -> io::Result<Vec<u8>> {
    let mut bytes = Vec::new();
    let mut chunk = vec![0; CHUNK];
    loop {
        match io::stdin().lock().read(&mut chunk)? {
            0 => return Ok(bytes),
            count => bytes.extend(&chunk[..count]),
        }
    }
}

/// The jobs of standard input, one a line.
pub fn batch() -> io::Result<()> {
    let mut output = io::stdout().lock();
    for line in io::stdin().lock().lines() {
        let line = line?;
        let words: Vec<&str> = line.split_ascii_whitespace().collect();
        let (job, name) = match words[..] {
            [ref job @ .., ">", name] => (job, Some(name)),
            ref job => (job, None),
        };
        let ["vcd", configuration, file, ref form @ ..] = *job else {
            eprintln!("dumps: {line}: only the word vcd");
            continue;
        };
        let text = vcd(configuration, file, form)?;
        match name {
            Some(name) if !text.starts_with(b"refused ") => fs::write(name, text)?,
            _ => output.write_all(&text)?,
        }
    }
    output.flush()
}
