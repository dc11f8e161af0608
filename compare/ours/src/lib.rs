//! The proved library behind `Rules`: buses and files by the crate `voussglen`, the parts by the crate `harness`.
//! A rule whose functions the library does not have yet is answered by none.

mod bus;
mod capability;
mod file;
mod function;
mod needs;
mod placement;
mod register;

pub use needs::lacks;
use rules::*;

pub struct Ours;

/// 0 passes, the rule's own refusal does not; another number is no answer, and so a difference.
fn passes(number: u8, refusal: u8) -> Asked<bool> {
    (number == 0 || number == refusal).then_some(number == 0)
}

impl Rules for Ours {
    fn check(&mut self, offset: u32, width: u32) -> Asked<bool> {
        passes(library::check(offset as usize, width as usize)?, 18)
    }

    fn size_ok(&mut self, size: u64) -> Asked<bool> {
        passes(library::size(size)?, 7)
    }

    fn size_mask(&mut self, size: u64) -> Asked<u32> {
        register::dword(library::size_mask(size)?)
    }

    fn shown(&mut self, bar: BarNow) -> Asked<u32> {
        register::shown(bar)
    }

    fn bar_write(&mut self, bar: BarNow, lane: u8, width: u8, value: u64) -> Asked<BarWrite> {
        register::write(bar, lane, width, value)
    }

    fn body_ok(&mut self, length: u32) -> Asked<bool> {
        passes(library::body(length as usize)?, 10)
    }

    fn first_bad_effect(&mut self, mask: &[u8], effects: &[Effect]) -> Asked<Option<usize>> {
        capability::first_bad_effect(mask, effects)
    }

    fn layout(&mut self, capabilities: &[Capability]) -> Asked<Result<Vec<u8>, LayoutRefusal>> {
        capability::layout(capabilities)
    }

    fn effect_for(&mut self, capabilities: &[Capability], offset: u16, width: u8, write: bool) -> Asked<Touch> {
        let placed = capability::placed(capabilities)?;
        let image = function::power_on(&Function { capabilities: capabilities.to_vec(), ..Function::default() })?;
        capability::touch(placed, &image.bytes, offset, width, write)
    }

    fn modes(&mut self, capabilities: &[Capability]) -> Asked<[Mode; 256]> {
        capability::modes(capabilities)
    }

    fn view(&mut self, capabilities: &[Capability], index: usize, image: &[u8]) -> Asked<Option<Vec<u8>>> {
        capability::view(capabilities, index, image)
    }

    fn place(&mut self, aperture: Aperture, wishes: &[Wish]) -> Asked<Result<Vec<u64>, PlaceRefusal>> {
        placement::place(aperture, wishes)
    }

    fn first_bad_byte(&mut self, function: &Function) -> Asked<Option<usize>> {
        function::first_bad_byte(function)
    }

    fn power_on(&mut self, function: &Function) -> Asked<Image> {
        function::power_on(function)
    }

    fn function(&mut self, function: &Function, now: &[Now], revision: u64, ops: &[Op]) -> Asked<Story> {
        function::story(function, now, revision, ops)
    }

    fn bus(&mut self, aperture: Aperture, cards: &[Card], ops: &[BusOp]) -> Asked<Story> {
        bus::story(aperture, cards, ops)
    }

    fn file(&mut self, bytes: &[u8]) -> Asked<Result<Started, FileRefusal>> {
        file::started(bytes)
    }
}
