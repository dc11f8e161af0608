//! The questions, put to the Rust. None where it has no such input.

mod address;
mod bar;
mod bus;
mod capability;
mod function;
mod placement;

pub(crate) use bus::{bdf, start};

use rules::*;

pub struct Oracle;

impl Rules for Oracle {
    fn check(&mut self, offset: u32, width: u32) -> Asked<bool> {
        address::check(offset, width)
    }

    fn size_ok(&mut self, size: u64) -> Asked<bool> {
        Some(bar::size_ok(size))
    }

    fn size_mask(&mut self, size: u64) -> Asked<u32> {
        bar::shown(BarNow { size, address: 0, probing: true })
    }

    fn shown(&mut self, bar: BarNow) -> Asked<u32> {
        bar::shown(bar)
    }

    fn bar_write(&mut self, bar: BarNow, lane: u8, width: u8, value: u64) -> Asked<BarWrite> {
        bar::write(bar, lane, width, value)
    }

    fn body_ok(&mut self, length: u32) -> Asked<bool> {
        Some(capability::body_ok(length as usize))
    }

    fn first_bad_effect(&mut self, mask: &[u8], effects: &[Effect]) -> Asked<Option<usize>> {
        capability::first_bad_effect(mask, effects)
    }

    fn layout(&mut self, capabilities: &[Capability]) -> Asked<Result<Vec<u8>, LayoutRefusal>> {
        capability::layout(capabilities)
    }

    fn effect_for(&mut self, capabilities: &[Capability], offset: u16, width: u8, write: bool) -> Asked<Touch> {
        function::effect_for(capabilities, offset, width, write)
    }

    fn modes(&mut self, capabilities: &[Capability]) -> Asked<[Mode; 256]> {
        capability::modes(capabilities)
    }

    fn view(&mut self, capabilities: &[Capability], index: usize, image: &[u8]) -> Asked<Option<Vec<u8>>> {
        capability::view(capabilities, index, image)
    }

    fn place(&mut self, aperture: Aperture, wishes: &[Wish]) -> Asked<Result<Vec<u64>, PlaceRefusal>> {
        placement::place(aperture, wishes)
    }

    /// The Rust has other rules for config bytes: docs/DIFFERENCES.md, finding 3.
    fn first_bad_byte(&mut self, _: &Function) -> Asked<Option<usize>> {
        None
    }

    fn power_on(&mut self, function: &Function) -> Asked<Image> {
        function::power_on(function)
    }

    fn function(&mut self, function: &Function, now: &[Now], revision: u64, ops: &[Op]) -> Asked<Story> {
        function::story(function, now, revision, ops)
    }

    fn bus(&mut self, aperture: Aperture, cards: &[Card], ops: &[BusOp]) -> Asked<Story> {
        bus::story(aperture, cards, ops)
    }

    /// The Rust reads no files.
    fn file(&mut self, _: &[u8]) -> Asked<Result<Started, FileRefusal>> {
        None
    }
}
