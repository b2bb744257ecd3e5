//! `oracle`: runs captures through the published Rust of the controller, and makes captures.

use std::io::{self, ErrorKind, Read, Write};
use std::path::Path;
use std::process::ExitCode;

use oracle::{
    against::Comparison, answers, cases, cuts, differ, generate, jobs, list, page, picture,
    replays, run, stats, tops, trace,
};

const USAGE: &str = "usage: oracle run | trace | list   (a capture on standard input)
       oracle lines | pgm [TOP] | png [TOP]   (the same, for a panel of any size)
       oracle cuts | pictures DIR   (the same)
       oracle differ CAPTURE CAPTURE
       oracle page
       oracle make SEED
       oracle stats SEED N
       oracle answers SEED LEVELS GREYS REFRESHES [RULED]
       oracle replays SEED N DIR
       oracle jobs DIR
       oracle cases DIR | check DIR
       oracle compare PANEL N SEED
       oracle tables TEST_GLASS N SEED
       oracle damaged PANEL SECONDS SEED
";

fn input() -> io::Result<Vec<u8>> {
    let mut file = Vec::new();
    io::stdin().lock().read_to_end(&mut file)?;
    Ok(file)
}

/// Writes to standard output; a reader that went away is no error.
fn say(bytes: impl AsRef<[u8]>) -> io::Result<()> {
    let mut output = io::stdout().lock();
    match output
        .write_all(bytes.as_ref())
        .and_then(|()| output.flush())
    {
        Err(error) if error.kind() == ErrorKind::BrokenPipe => Ok(()),
        result => result,
    }
}

fn number(word: &str) -> io::Result<u64> {
    word.parse()
        .map_err(|error| io::Error::new(ErrorKind::InvalidInput, format!("{word}: {error}")))
}

fn short(word: &str) -> io::Result<u16> {
    u16::try_from(number(word)?)
        .map_err(|error| io::Error::new(ErrorKind::InvalidInput, format!("{word}: {error}")))
}

fn verdict(equal: bool) -> ExitCode {
    if equal {
        ExitCode::SUCCESS
    } else {
        ExitCode::FAILURE
    }
}

fn obey(words: &[&str]) -> io::Result<ExitCode> {
    match words {
        ["run"] => say(run::run(&input()?))?,
        ["trace"] => say(trace::trace(&input()?))?,
        ["list"] => say(list::list(&input()?))?,
        ["lines"] => say(jobs::lines(&input()?))?,
        ["pgm"] => say(picture::pgm(&input()?))?,
        ["png"] => say(picture::png(&input()?))?,
        ["pgm", top] => say(tops::pgm(&input()?, short(top)?))?,
        ["png", top @ ("0" | "255" | "65535")] => say(tops::png(&input()?, short(top)?))?,
        ["cuts"] => say(cuts::cuts(&input()?))?,
        ["pictures", directory] => {
            let file = input()?;
            picture::write_all(&file, Path::new(directory))?;
            say(picture::heads(&file))?;
        }
        ["differ", a, b] => {
            let files = [std::fs::read(a)?, std::fs::read(b)?];
            say(differ::differ([a, b], [&files[0], &files[1]]))?;
        }
        ["page"] => say(page::page())?,
        ["make", seed] => say(generate::make(number(seed)?))?,
        ["stats", seed, count] => say(stats::stats(number(seed)?, number(count)?))?,
        ["answers", seed, levels, greys, refreshes, ruled @ ..] if ruled.len() < 2 => {
            let ruled = ruled.first().map(|count| number(count)).transpose()?;
            say(answers::answers(
                number(seed)?,
                number(levels)?,
                number(greys)?,
                number(refreshes)?,
                ruled,
            ))?;
        }
        ["tables", program, count, seed] => {
            let (count, seed) = (number(count)?, number(seed)?);
            return Ok(verdict(answers::tables(Path::new(program), count, seed)?));
        }
        ["replays", seed, count, directory] => {
            replays::write(number(seed)?, number(count)?, Path::new(directory))?;
        }
        ["jobs", directory] => jobs::write(Path::new(directory))?,
        ["cases", directory] => cases::write(Path::new(directory))?,
        ["check", directory] => {
            let (text, equal) = cases::check(Path::new(directory))?;
            say(text)?;
            return Ok(verdict(equal));
        }
        ["compare", panel, count, seed] => {
            let mut comparison = Comparison::by(Path::new(panel));
            return Ok(verdict(
                comparison.generated(number(count)?, number(seed)?)?,
            ));
        }
        ["damaged", panel, seconds, seed] => {
            let mut comparison = Comparison::by(Path::new(panel));
            return Ok(verdict(
                comparison.damaged(number(seconds)?, number(seed)?)?,
            ));
        }
        _ => {
            eprint!("{USAGE}");
            return Ok(ExitCode::from(2));
        }
    }
    Ok(ExitCode::SUCCESS)
}

fn main() -> ExitCode {
    let arguments: Vec<String> = std::env::args().skip(1).collect();
    let words: Vec<&str> = arguments.iter().map(String::as_str).collect();
    obey(&words).unwrap_or_else(|error| {
        eprintln!("oracle: {error}");
        ExitCode::from(2)
    })
}
