//! Ours, not published: what `uc8253/lines.rs` needs of `crate::lines` to compile, and no more.
//!
//! Assumed: a controller is wrapped whole, its time base is 1 GHz, and the four line types are
//! named by the controller alone. Nothing here is called by the oracle, so no answer rests on it.

use std::marker::PhantomData;
use std::num::NonZeroU64;

use emu_core::{Cycles, Frequency, Level};

/// The time base of a wired panel: one cycle is one nanosecond.
pub const ONE_GIGAHERTZ: Frequency = Frequency::from_hertz(NonZeroU64::new(1_000_000_000).unwrap());

/// What a controller offers to the lines around it, as `uc8253/lines.rs` implements it.
pub trait PanelController {
    fn write_command(&mut self, now: Cycles, command: u8);
    fn write_data(&mut self, now: Cycles, data: u8);
    fn is_read_command(&self, command: u8) -> bool;
    fn read_data(&mut self, now: Cycles) -> Option<u8>;
    fn set_reset(&mut self, now: Cycles, asserted: bool);
    fn busy_level(&mut self, now: Cycles) -> Level;
    fn next_deadline(&self) -> Option<Cycles>;
    fn advance(&mut self, now: Cycles);
}

/// A controller seen from its pins.
#[derive(Debug)]
pub struct PanelLines<C> {
    controller: C,
}

impl<C: PanelController> PanelLines<C> {
    pub fn wrap(controller: C) -> PanelLines<C> {
        PanelLines { controller }
    }

    pub fn controller(&mut self) -> &mut C {
        &mut self.controller
    }
}

/// A line that the controller hears.
#[derive(Debug)]
pub struct PanelOutput<C>(PhantomData<C>);

/// The lines that the controller hears.
#[derive(Debug)]
pub struct PanelOutputs<C>(PhantomData<C>);

/// A line that the controller drives.
#[derive(Debug)]
pub struct PanelInput<C>(PhantomData<C>);

/// The lines that the controller drives.
#[derive(Debug)]
pub struct PanelInputs<C>(PhantomData<C>);
