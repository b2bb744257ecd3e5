//! Draws a page on the X3's panel and writes what the glass then shows: `page PATH`, a graymap.

mod drawing;

use std::error::Error;
use std::{env, fs};

use drawing::Step;
use jollanqe::{Configuration, Panel, Refused, Variant};

/// The panel after the page; `clock` is when the last thing ended.
fn drawn() -> Result<(Panel, u64), Refused> {
    let mut panel = Panel::new(&Configuration::x3(Variant::Uc8253))?;
    let mut clock = 0;
    for step in drawing::steps() {
        match step {
            Step::Send(command, data) => panel.send(clock, command, &data)?,
            Step::Wait => {
                clock = panel.deadline()?.unwrap_or(clock);
                panel.advance(clock)?;
            }
        }
    }
    Ok((panel, clock))
}

fn main() -> Result<(), Box<dyn Error>> {
    let path = env::args_os().nth(1).ok_or("usage: page PATH")?;
    let (panel, clock) = drawn()?;
    let (image, rows) = (panel.image(), panel.rows());
    println!(
        "{} by {}, refresh {} ended at {clock} ns, {} diagnostics",
        image.width,
        image.height,
        image.generation,
        rows.len()
    );
    fs::write(path, panel.graymap())?;
    Ok(())
}
