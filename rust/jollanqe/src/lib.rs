//! A model of the UC8253/UC8279d e-paper controller and of the glass behind it.
//!
//! Feed it what goes over the bus, and look at the picture that the glass shows. The model itself is
//! written and proved in Rattle; this crate links its static library (`tools/build exports` at the
//! project's root; `JOLLANQE_LIBRARY_DIR` names another folder) and owns what a host lends to it.
//!
//! ```
//! use jollanqe::{Configuration, Panel, Variant};
//!
//! let mut panel = Panel::new(&Configuration::x3(Variant::Uc8253))?;
//! panel.send(0, 0x00, &[0x3F])?; // tables from the registers
//! panel.send(0, 0x04, &[])?; // power on
//! let up = panel.deadline()?.expect("power on runs");
//! assert!(panel.busy(0)?);
//! panel.advance(up)?;
//! panel.send(up, 0x12, &[])?; // a refresh, of empty tables
//! let end = panel.deadline()?.expect("a refresh runs");
//! panel.advance(end)?;
//! assert_eq!((panel.image().generation, panel.picture_row(0)[0]), (1, 255));
//! # Ok::<(), jollanqe::Refused>(())
//! ```
//!
//! `examples/page` draws a page. Bytes of commands, captures, diagnostics and refusals are in the
//! project's docs/FORMAT.md, and what a host can get wrong in docs/HOSTS.md.
#![warn(missing_docs)]

mod configuration;
mod event;
mod panel;
pub mod raw;
mod refused;

pub use configuration::{Configuration, FRAME_PERIODS, Variant};
pub use event::{Answer, EVENT_BYTES, Event, What, read_capture, write_capture};
pub use panel::{MOST_ROWS, PLANE_BYTES, Panel, Parts, Plane, ROW_NUMBERS, RunError};
pub use refused::Refused;
