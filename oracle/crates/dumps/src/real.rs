//! Dumps that programs wrote, stored in a folder: each `NAME.vcd` with what it must answer,
//! `NAME.out`, all of one panel, `panel.config`.

use std::fs;
use std::io;
use std::path::Path;

use crate::batch::Job;
use crate::judge::{self, Form};

/// The dumps of a folder by name, with the answers that are stored.
pub fn jobs(folder: &Path) -> io::Result<Vec<Job>> {
    let configuration = fs::read(folder.join("panel.config"))?;
    let mut names = Vec::new();
    for entry in fs::read_dir(folder)? {
        let path = entry?.path();
        if path.extension().is_some_and(|end| end == "vcd") {
            names.push(path);
        }
    }
    names.sort();
    let job = |path: &Path| {
        let name = path.file_stem().unwrap_or_default().to_string_lossy();
        Ok(Job::answered(
            name.into_owned(),
            configuration.clone(),
            fs::read(path)?,
            Form::Lines,
            fs::read(path.with_extension("out"))?,
        ))
    };
    names.iter().map(|path| job(path)).collect()
}

/// A line for each stored dump, and whether the reader agrees with every answer.
pub fn check(folder: &Path) -> io::Result<(String, bool)> {
    let (mut text, mut equal) = (String::new(), true);
    for job in jobs(folder)? {
        let read = judge::judge(&job.configuration, &job.dump, Form::Lines);
        let is_equal = read == job.expected();
        equal &= is_equal;
        let verdict = match (is_equal, job.number()) {
            (false, _) => "DIFFERS".to_string(),
            (true, 0) => "played".to_string(),
            (true, number) => format!("refused {number}"),
        };
        text += &format!("{}: {verdict}\n", job.name);
    }
    Ok((text, equal))
}
