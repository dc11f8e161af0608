//! Document 01 in plain Rust, written from its sentences and not from axdevice.
//! It is slow and short: the third voice beside the Rust and the library.

mod access;
mod bar;
mod bus;
mod capability;
mod file;
mod function;
mod image;
mod placement;

use rules::*;

pub struct Model;

impl Rules for Model {
    fn check(&mut self, offset: u32, width: u32) -> Asked<bool> {
        Some(access::check(offset.into(), width.into()))
    }

    fn size_ok(&mut self, size: u64) -> Asked<bool> {
        Some(bar::size_ok(size))
    }

    fn size_mask(&mut self, size: u64) -> Asked<u32> {
        bar::size_ok(size).then(|| bar::size_mask(size))
    }

    fn shown(&mut self, bar: BarNow) -> Asked<u32> {
        bar::size_ok(bar.size).then(|| bar::shown(bar))
    }

    fn bar_write(&mut self, bar: BarNow, lane: u8, width: u8, value: u64) -> Asked<BarWrite> {
        let asked = bar::size_ok(bar.size) && lane < 4 && access::check(lane.into(), width.into());
        asked.then(|| bar::write(bar, lane, width, value))
    }

    fn body_ok(&mut self, length: u32) -> Asked<bool> {
        Some(capability::body_ok(length as usize))
    }

    fn first_bad_effect(&mut self, mask: &[u8], effects: &[Effect]) -> Asked<Option<usize>> {
        let asked = capability::body_ok(mask.len()) && effects.iter().all(|effect| (1..=3).contains(&effect.access));
        asked.then(|| capability::first_bad_effect(mask, effects))
    }

    fn layout(&mut self, capabilities: &[Capability]) -> Asked<Result<Vec<u8>, LayoutRefusal>> {
        capability::held(capabilities).then(|| capability::layout(capabilities))
    }

    fn effect_for(&mut self, capabilities: &[Capability], offset: u16, width: u8, write: bool) -> Asked<Touch> {
        let placed = capability::placed(capabilities)?;
        let live = image::power_on(&Function::default(), &placed).bytes;
        let asked = access::check(offset.into(), width.into());
        asked.then(|| capability::touch(&placed, &capability::owners(&placed), &live, offset, width, write))
    }

    fn modes(&mut self, capabilities: &[Capability]) -> Asked<[Mode; 256]> {
        Some(capability::modes(&capability::placed(capabilities)?))
    }

    fn view(&mut self, capabilities: &[Capability], index: usize, image: &[u8]) -> Asked<Option<Vec<u8>>> {
        Some(capability::view(&capability::placed(capabilities)?, index, image))
    }

    fn place(&mut self, aperture: Aperture, wishes: &[Wish]) -> Asked<Result<Vec<u64>, PlaceRefusal>> {
        placement::declarable(aperture, wishes).then(|| placement::place(aperture, wishes))
    }

    fn first_bad_byte(&mut self, function: &Function) -> Asked<Option<usize>> {
        Some(image::first_bad_byte(function, &capability::placed(&function.capabilities)?))
    }

    fn power_on(&mut self, function: &Function) -> Asked<Image> {
        Some(image::power_on(function, &image::declarable(function)?))
    }

    fn function(&mut self, function: &Function, now: &[Now], revision: u64, ops: &[Op]) -> Asked<Story> {
        let mut state = function::State::new(function, revision)?;
        now.iter().try_for_each(|now| state.begin(*now))?;
        let answers = ops.iter().map(|op| state.step(*op)).collect();
        Some(Story { answers, ends: vec![state.end()], after: None })
    }

    fn bus(&mut self, aperture: Aperture, cards: &[Card], ops: &[BusOp]) -> Asked<Story> {
        let mut bus = bus::Bus::new(aperture, cards)?;
        let mut after = vec![bus.start()];
        let step = |op: &BusOp| {
            let (answer, then) = bus.told(*op, after.len());
            after.push(then);
            answer
        };
        let answers = ops.iter().map(step).collect();
        Some(Story { answers, ends: bus.ends(cards), after: Some(after) })
    }

    fn file(&mut self, bytes: &[u8]) -> Asked<Result<Started, FileRefusal>> {
        let (aperture, cards) = match file::declared(bytes) {
            Ok(declared) => declared,
            Err(refusal) => return Some(Err(refusal)),
        };
        Some(Ok(Started { aperture, functions: bus::Bus::new(aperture, &cards)?.start().changed }))
    }
}
