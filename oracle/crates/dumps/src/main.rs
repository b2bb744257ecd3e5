//! `dumps`: holds `jollanqe vcd` to a plain reader of dumps and the published Rust.

use std::fs;
use std::io::{self, ErrorKind, Write};
use std::path::Path;
use std::process::ExitCode;

use dumps::{against, cases, judge, list, make, page, real, stand_in, stats};

const USAGE: &str = "usage: dumps vcd CONFIG FILE [lines | pgm [TOP] | png [TOP]]
       dumps list FILE
       dumps make SEED DIR
       dumps stats SEED N
       dumps cases DIR | sample SEED N DIR
       dumps check DIR
       dumps page SEED DIR
       dumps made JOLLANQE DIR
       dumps compare JOLLANQE N SEED
       dumps pieces JOLLANQE N SEED
       dumps fuzz JOLLANQE SECONDS SEED
       dumps   (jobs of the word vcd on standard input)
";

/// Writes to standard output; a reader that went away is no error.
fn say(bytes: impl AsRef<[u8]>) -> io::Result<()> {
    match io::stdout().lock().write_all(bytes.as_ref()) {
        Err(error) if error.kind() == ErrorKind::BrokenPipe => Ok(()),
        result => result,
    }
}

fn number(word: &str) -> io::Result<u64> {
    word.parse()
        .map_err(|error| io::Error::new(ErrorKind::InvalidInput, format!("{word}: {error}")))
}

/// Writes the dump of a seed, its configuration and what must come of it.
fn made(seed: u64, folder: &Path) -> io::Result<()> {
    fs::create_dir_all(folder)?;
    let made = make::make(seed);
    let output = judge::judge(&made.configuration, &made.dump, judge::Form::Lines);
    let file = |end: &str| folder.join(format!("{seed}.{end}"));
    fs::write(file("config"), &made.configuration)?;
    fs::write(file("vcd"), &made.dump)?;
    fs::write(file("out"), output)
}

/// Obeys the words; tells whether all was equal.
fn obey(words: &[&str]) -> io::Result<Option<bool>> {
    match words {
        [] => stand_in::batch()?,
        ["vcd", configuration, file, form @ ..] => {
            say(stand_in::vcd(configuration, file, form)?)?;
        }
        ["list", file] => say(list::list(&fs::read(file)?))?,
        ["make", seed, folder] => made(number(seed)?, Path::new(folder))?,
        ["stats", seed, count] => say(stats::stats(number(seed)?, number(count)?))?,
        ["cases", folder] => cases::write(Path::new(folder))?,
        ["sample", seed, count, folder] => {
            let count = number(count)? as usize;
            make::write(number(seed)?, count, Path::new(folder))?;
        }
        ["page", seed, folder] => page::write(number(seed)?, Path::new(folder))?,
        ["check", folder] => {
            let (text, equal) = real::check(Path::new(folder))?;
            say(text)?;
            return Ok(Some(equal));
        }
        ["made", program, folder] => {
            return against::made(Path::new(program), Path::new(folder)).map(Some);
        }
        ["compare", program, count, seed] => {
            return against::compare(Path::new(program), number(count)?, number(seed)?).map(Some);
        }
        ["pieces", program, count, seed] => {
            return against::pieces(Path::new(program), number(count)?, number(seed)?).map(Some);
        }
        ["fuzz", program, seconds, seed] => {
            return against::fuzz(Path::new(program), number(seconds)?, number(seed)?).map(Some);
        }
        _ => return Ok(None),
    }
    Ok(Some(true))
}

fn main() -> ExitCode {
    let arguments: Vec<String> = std::env::args().skip(1).collect();
    let words: Vec<&str> = arguments.iter().map(String::as_str).collect();
    match obey(&words) {
        Ok(Some(true)) => ExitCode::SUCCESS,
        Ok(Some(false)) => ExitCode::FAILURE,
        Ok(None) => {
            eprint!("{USAGE}");
            ExitCode::from(2)
        }
        Err(error) => {
            eprintln!("dumps: {error}");
            ExitCode::from(2)
        }
    }
}
