//! Jobs for `jollanqe`, many in one batch, held to what each has to write.

use std::collections::HashMap;
use std::fs;
use std::io::{self, ErrorKind, Write};
use std::path::{Path, PathBuf};
use std::process::{Command, Stdio};

use crate::cases::Case;
use crate::judge::{self, Form};

/// A job of the word `vcd`, and what it has to write.
pub struct Job {
    pub name: String,
    pub configuration: Vec<u8>,
    pub dump: Vec<u8>,
    form: Form,
    /// The output goes to a file by `> NAME`.
    has_file: bool,
    is_refused: bool,
    expected: Vec<u8>,
}

impl Job {
    /// A job judged by the reader.
    pub fn new(name: String, configuration: Vec<u8>, dump: Vec<u8>, form: Form) -> Job {
        let expected = judge::judge(&configuration, &dump, form);
        Job::answered(name, configuration, dump, form, expected)
    }

    pub fn answered(
        name: String,
        configuration: Vec<u8>,
        dump: Vec<u8>,
        form: Form,
        expected: Vec<u8>,
    ) -> Job {
        Job {
            name,
            configuration,
            dump,
            form,
            has_file: false,
            is_refused: expected.starts_with(b"refused "),
            expected,
        }
    }

    pub fn to_file(self) -> Job {
        Job {
            has_file: true,
            ..self
        }
    }

    /// A dump made by hand, with what must be written by the answer that was written down.
    pub fn made(case: &Case, form: Form) -> Job {
        Job::answered(
            case.name.clone(),
            case.configuration.clone(),
            case.dump.clone(),
            form,
            case.written(form),
        )
    }

    /// The number of the refusal, 0 for none.
    pub fn number(&self) -> usize {
        let text = String::from_utf8_lossy(&self.expected);
        match text.strip_prefix("refused ") {
            Some(number) if self.is_refused => number.trim_end().parse().unwrap_or_default(),
            _ => 0,
        }
    }

    pub fn expected(&self) -> &[u8] {
        &self.expected
    }

    pub fn form(&self) -> Form {
        self.form
    }

    fn line(&self, index: usize) -> String {
        let words = self.form.words();
        let file = if self.has_file {
            format!(" > {index}.out")
        } else {
            String::new()
        };
        format!("vcd {index}.config {index}.vcd {words}{file}\n")
    }

    /// What of it comes on standard output.
    fn said(&self) -> &[u8] {
        if self.has_file && !self.is_refused {
            &[]
        } else {
            &self.expected
        }
    }

    /// Whether the file is as it should be: none for a refused dump.
    fn is_filed(&self, file: &Path) -> bool {
        match fs::read(file) {
            Ok(bytes) => self.has_file && !self.is_refused && bytes == self.expected,
            Err(_) => !self.has_file || self.is_refused,
        }
    }
}

/// Writes jobs as a batch of `jollanqe`, as the gate replays one: stdin, data and stdout. A
/// configuration that many share stands once.
pub fn write(folder: &Path, jobs: &[Job]) -> io::Result<()> {
    let data = folder.join("data");
    fs::create_dir_all(&data)?;
    let (mut lines, mut output) = (String::new(), Vec::new());
    let mut panels: HashMap<&[u8], &str> = HashMap::new();
    for job in jobs {
        let name = job.name.as_str();
        let panel = *panels.entry(&job.configuration).or_insert(name);
        if panel == name {
            fs::write(data.join(format!("{name}.config")), &job.configuration)?;
        }
        fs::write(data.join(format!("{name}.vcd")), &job.dump)?;
        lines += &format!("vcd {panel}.config {name}.vcd {}\n", job.form.words());
        output.extend(&job.expected);
    }
    fs::write(folder.join("stdin"), lines)?;
    fs::write(folder.join("stdout"), output)
}

/// A program, and the folder in which its jobs lie.
pub struct Program {
    path: PathBuf,
    folder: PathBuf,
}

impl Program {
    /// The folder is of this process and taken away again.
    pub fn by(path: &Path) -> io::Result<Program> {
        let folder = std::env::temp_dir().join(format!("dumps-{}", std::process::id()));
        fs::create_dir_all(&folder)?;
        Ok(Program {
            path: fs::canonicalize(path)?,
            folder,
        })
    }

    pub fn command(&self) -> Command {
        let mut command = Command::new(&self.path);
        command
            .current_dir(&self.folder)
            .stdout(Stdio::piped())
            .stderr(Stdio::piped());
        command
    }

    pub fn put(&self, index: usize, job: &Job) -> io::Result<()> {
        let file = |end: &str| self.folder.join(format!("{index}.{end}"));
        fs::write(file("config"), &job.configuration)?;
        fs::write(file("vcd"), &job.dump)?;
        match fs::remove_file(file("out")) {
            Err(error) if error.kind() != ErrorKind::NotFound => Err(error),
            _ => Ok(()),
        }
    }

    /// What the program says to a batch, if it ends as it should.
    fn said(&self, jobs: &[Job]) -> io::Result<Vec<u8>> {
        let mut lines = String::new();
        for (index, job) in jobs.iter().enumerate() {
            self.put(index, job)?;
            lines += &job.line(index);
        }
        let mut child = self.command().stdin(Stdio::piped()).spawn()?;
        let mut input = child.stdin.take().expect("it is piped");
        let feeder = std::thread::spawn(move || input.write_all(lines.as_bytes()));
        let output = child.wait_with_output()?;
        let is_fed = feeder.join().expect("it does not panic").is_ok();
        if output.status.success() && is_fed {
            return Ok(output.stdout);
        }
        let words = String::from_utf8_lossy(&output.stderr).into_owned();
        Err(io::Error::other(format!("{}: {words}", output.status)))
    }

    /// Whether every job of the batch wrote what it has to write; else what it said.
    fn holds(&self, jobs: &[Job]) -> Result<(), Vec<u8>> {
        let said = self
            .said(jobs)
            .map_err(|error| error.to_string().into_bytes())?;
        let expected: Vec<u8> = jobs.iter().flat_map(|job| job.said()).copied().collect();
        if said != expected {
            return Err(said);
        }
        for (index, job) in jobs.iter().enumerate() {
            let file = self.folder.join(format!("{index}.out"));
            if !job.is_filed(&file) {
                return Err(fs::read(file).unwrap_or_else(|_| b"no such file\n".to_vec()));
            }
        }
        Ok(())
    }

    /// Whether the batch is as it should be. If not, the first job that differs by itself is kept,
    /// or the whole batch is told.
    pub fn keeps(&self, jobs: &[Job]) -> io::Result<bool> {
        let Err(said) = self.holds(jobs) else {
            return Ok(true);
        };
        for job in jobs {
            if let Err(said) = self.holds(std::slice::from_ref(job)) {
                keep(job, &said)?;
                return Ok(false);
            }
        }
        println!(
            "no job differs by itself, only the batch from {}",
            jobs[0].name
        );
        keep(&jobs[0], &said)?;
        Ok(false)
    }
}

impl Drop for Program {
    fn drop(&mut self) {
        // What is left behind in a temporary folder does no harm.
        let _ = fs::remove_dir_all(&self.folder);
    }
}

/// Keeps a difference in `difference/`.
pub fn keep(job: &Job, said: &[u8]) -> io::Result<()> {
    let kept = Path::new("difference");
    fs::create_dir_all(kept)?;
    fs::write(kept.join("config"), &job.configuration)?;
    fs::write(kept.join("vcd"), &job.dump)?;
    fs::write(kept.join("rust"), &job.expected)?;
    fs::write(kept.join("jollanqe"), said)?;
    let first = |bytes: &[u8]| {
        let text = String::from_utf8_lossy(&bytes[..bytes.len().min(200)]).into_owned();
        text.lines().next().unwrap_or_default().to_string()
    };
    println!("{} differs: see difference/", job.name);
    println!("  expected: {}", first(&job.expected));
    println!("  it wrote: {}", first(said));
    Ok(())
}
