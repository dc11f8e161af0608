//! The trait that each side of the comparison fills.

use crate::{answer::*, data::*};

/// None: this side has no such input, so it is not compared.
pub type Asked<T> = Option<T>;

/// One method a rule. Nothing is kept between calls.
pub trait Rules {
    /// 18 for a config access; true if it passes.
    fn check(&mut self, offset: u32, width: u32) -> Asked<bool>;
    /// 7; true if the size is allowed.
    fn size_ok(&mut self, size: u64) -> Asked<bool>;
    fn size_mask(&mut self, size: u64) -> Asked<u32>;
    /// The register's dword.
    fn shown(&mut self, bar: BarNow) -> Asked<u32>;
    /// `lane` is the offset within the register.
    fn bar_write(&mut self, bar: BarNow, lane: u8, width: u8, value: u64) -> Asked<BarWrite>;
    /// 10; true if a body may be that long.
    fn body_ok(&mut self, length: u32) -> Asked<bool>;
    /// 11, the effects declared one after the other; the index of the first refused.
    fn first_bad_effect(&mut self, mask: &[u8], effects: &[Effect]) -> Asked<Option<usize>>;
    /// 12 and 13; the offset of each capability.
    fn layout(&mut self, capabilities: &[Capability]) -> Asked<Result<Vec<u8>, LayoutRefusal>>;
    /// 19, at power-on.
    fn effect_for(&mut self, capabilities: &[Capability], offset: u16, width: u8, write: bool) -> Asked<Touch>;
    fn modes(&mut self, capabilities: &[Capability]) -> Asked<[Mode; 256]>;
    /// A capability's body as it stands in the image; none past the last, or if the image is not 256 bytes long.
    fn view(&mut self, capabilities: &[Capability], index: usize, image: &[u8]) -> Asked<Option<Vec<u8>>>;
    /// 14 to 17; the addresses in the order of the wishes.
    fn place(&mut self, aperture: Aperture, wishes: &[Wish]) -> Asked<Result<Vec<u64>, PlaceRefusal>>;
    /// 9; the index of the first config byte that is refused.
    fn first_bad_byte(&mut self, function: &Function) -> Asked<Option<usize>>;
    fn power_on(&mut self, function: &Function) -> Asked<Image>;
    /// Steps on one function; one end.
    fn function(&mut self, function: &Function, now: &[Now], revision: u64, ops: &[Op]) -> Asked<Story>;
    /// Steps on a bus from power-on; an end for each card.
    fn bus(&mut self, aperture: Aperture, cards: &[Card], ops: &[BusOp]) -> Asked<Story>;
    /// 1 to 17, or the bus at power-on.
    fn file(&mut self, bytes: &[u8]) -> Asked<Result<Started, FileRefusal>>;
}
