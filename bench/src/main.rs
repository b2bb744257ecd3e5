//! The port beside the published Rust, both built for release, on the same input in one run.

mod clock;
mod panels;
mod programs;
mod rows;
mod sides;
mod table;

use std::io;

use panels::{long, plane_bytes, short, sized, x3};

/// A full swing whose grey takes the other way.
const WIDE_BITS: u32 = 56;
/// Panels of so many pixels, twice and four times as many.
const SIZES: [(u16, u16); 3] = [(400, 264), (400, 528), (800, 528)];

fn main() -> io::Result<()> {
    if std::env::args().nth(1).as_deref() == Some(programs::RUN) {
        return programs::be_the_rust();
    }
    let panel = x3(None);
    let plane = plane_bytes(&panel);
    println!("The X3's 792 by 528 panel:\n");
    table::head();
    rows::byte_by_call(&panel);
    rows::bytes_by_run(&panel, plane, "a plane byte by `run`");
    rows::refresh(&panel, &short(), true, "swing below 2^54");
    rows::refresh(&panel, &long(), false, "swing below 2^54");
    let wide = x3(Some(WIDE_BITS));
    rows::refresh(&wide, &short(), false, "swing 2^56");
    rows::refresh(&wide, &long(), false, "swing 2^56");
    rows::page_turn(&panel, "a whole page turn by `run`", 1);
    programs::whole_capture()?;
    println!("\nWith pixels, by a pixel:\n");
    table::head();
    for (sources, gates) in SIZES {
        let pixels = u64::from(sources) * u64::from(gates);
        let what = format!("a page turn of {sources} by {gates}");
        rows::page_turn(&sized(sources, gates), &what, pixels);
    }
    println!("\nWith events, by an event:\n");
    table::head();
    for share in [4, 2, 1] {
        let count = plane / share;
        rows::bytes_by_run(&panel, count, &format!("a `run` of {count} plane bytes"));
    }
    Ok(())
}
