//! `oracle pgm`, `oracle png`, `oracle pictures`: the last picture, or all of them, as `jollanqe`
//! writes them.

use std::fs;
use std::io;
use std::path::Path;

use chips::uc8253::PanelImage;

use crate::refusal::Refusal;
use crate::{png, run};

/// A binary graymap (Netpbm P5).
pub fn graymap(image: &PanelImage) -> Vec<u8> {
    let mut bytes = format!("P5\n{} {}\n255\n", image.width, image.height).into_bytes();
    bytes.extend(&image.pixels);
    bytes
}

/// The picture that the published Rust publishes last, in a form; or the line of a refusal.
fn last(file: &[u8], form: impl Fn(&PanelImage) -> Vec<u8>) -> Vec<u8> {
    match run::accept_any(file) {
        Err(refusal) => run::refused(refusal).into_bytes(),
        Ok((capture, chip)) => form(&run::events(chip, &capture.events, |_, _, _| ()).image),
    }
}

pub fn pgm(file: &[u8]) -> Vec<u8> {
    last(file, graymap)
}

fn png_file(image: &PanelImage) -> Vec<u8> {
    png::file(image.width, image.height, 8, &image.pixels)
}

pub fn png(file: &[u8]) -> Vec<u8> {
    last(file, png_file)
}

/// Every picture that the published Rust publishes, in turn: each time its generation has changed.
fn published(file: &[u8]) -> Result<Vec<PanelImage>, Refusal> {
    let (capture, chip) = run::accept_any(file)?;
    let mut images = vec![chip.panel_image().clone()];
    run::events(chip, &capture.events, |_, _, chip| {
        let last = images.last().expect("there is one");
        if last.generation != chip.panel_image().generation {
            images.push(chip.panel_image().clone());
        }
    });
    Ok(images.split_off(1))
}

/// The heads of the pictures, a line each; or the line of a refusal.
pub fn heads(file: &[u8]) -> String {
    match published(file) {
        Err(refusal) => run::refused(refusal),
        Ok(images) => images.iter().map(run::head).collect(),
    }
}

/// Writes the pictures into a directory, as PNG files named by generation.
pub fn write_all(file: &[u8], directory: &Path) -> io::Result<()> {
    fs::create_dir_all(directory)?;
    for image in published(file).unwrap_or_default() {
        let name = format!("{}.png", image.generation);
        fs::write(directory.join(name), png_file(&image))?;
    }
    Ok(())
}
