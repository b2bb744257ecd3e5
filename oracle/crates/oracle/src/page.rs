//! `oracle page`: the page of the project's examples, as the published Rust draws it.

use chips::lines::ONE_GIGAHERTZ;
use chips::uc8253::{Uc8253, Uc8253Config};
use emu_core::Cycles;

use crate::picture::graymap;
use drawing::Step;

#[path = "../../../../rust/jollanqe/examples/page/drawing.rs"]
mod drawing;

/// The graymap of the X3's panel after the examples' steps, each at the end of the wait before it.
pub fn page() -> Vec<u8> {
    let mut chip = Uc8253::new(Uc8253Config::xteink_x3(), ONE_GIGAHERTZ).expect("the X3 is made");
    let mut clock = Cycles::ZERO;
    for step in drawing::steps() {
        match step {
            Step::Send(command, data) => {
                chip.write_command(clock, command);
                data.iter().for_each(|&byte| chip.write_data(clock, byte));
            }
            Step::Wait => {
                clock = chip.next_deadline().unwrap_or(clock);
                chip.advance(clock);
            }
        }
    }
    graymap(chip.panel_image())
}
