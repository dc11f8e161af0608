//! The crate `harness` of the proved library, over C. A function that the library does not have yet answers none.

mod types;

pub use types::*;

/// Which functions the library has, and stand-ins for the rest.
pub mod have {
    include!(concat!(env!("OUT_DIR"), "/have.rs"));
}

/// Declares functions whose arguments and answer all go by value.
macro_rules! by_value {
    ($($have:ident $name:ident = $symbol:ident($($part:ident: $type:ty),*) -> $answer:ty;)*) => {
        unsafe extern "C" {
            $(safe fn $symbol($($part: $type),*) -> $answer;)*
        }
        $(pub fn $name($($part: $type),*) -> Option<$answer> {
            have::$have.then(|| $symbol($($part),*))
        })*
    };
}

by_value! {
    HARNESS_CHECK check = harness_check(offset: usize, width: usize) -> u8;
    HARNESS_SIZE size = harness_size(size: u64) -> u8;
    HARNESS_SIZE_MASK size_mask = harness_size_mask(size: u64) -> u64;
    HARNESS_SHOWN shown = harness_shown(size: u64, address: u64, probing: bool) -> u64;
    HARNESS_BAR_ASKS bar_asks =
        harness_bar_asks(size: u64, address: u64, probing: bool, lane: usize, width: usize, value: u64) -> BarAsked;
    HARNESS_BODY body = harness_body(length: usize) -> u8;
    HARNESS_LAYOUT layout = harness_layout(declared: DeclaredNumbers) -> LaidOut;
    HARNESS_TOUCH touch = harness_touch(placed: Placed, offset: usize, width: usize, write: bool) -> Touched;
    HARNESS_PLACE place = harness_place(request: PlaceNumbers) -> PlacedOut;
    HARNESS_POWER_ON power_on = harness_power_on(contents: ContentsNumbers, bars: Bars, placed: Placed) -> PowerOn;
    HARNESS_CONFIG_BYTES config_bytes = harness_config_bytes(contents: ContentsNumbers, placed: Placed) -> BytesOut;
    HARNESS_START start = harness_start(power_on: PowerOn, bars: Bars, placed: Placed) -> FunctionState;
    HARNESS_READ read = harness_read(state: FunctionState, offset: usize, width: usize) -> ReadOut;
    HARNESS_WRITE write = harness_write(state: FunctionState, offset: usize, width: usize, value: u64) -> WriteOut;
    HARNESS_FINISH finish = harness_finish(state: FunctionState, slot: u8, accepted: bool, address: u64) -> FunctionState;
    HARNESS_RESET reset = harness_reset(state: FunctionState) -> ResetOut;
}

// A slice goes as its pointer, then its length.
unsafe extern "C" {
    fn harness_effect(declared: DeclaredNumbers, mask: *const u8, length: usize, effect: PlacedEffect) -> u8;
    fn harness_mode(placed: Placed, mask: *const u8, length: usize, offset: usize) -> u8;
    fn harness_view(
        placed: Placed,
        index: usize,
        live: *const u8,
        live_length: usize,
        power: *const u8,
        power_length: usize,
        from_live: bool,
    ) -> ViewCopy;
    fn harness_snapshot(placed: Placed, image: *const u8, length: usize, index: usize) -> Snapshot;
}

pub fn effect(declared: DeclaredNumbers, mask: &[u8], effect: PlacedEffect) -> Option<u8> {
    // SAFETY: pointer and length are those of one slice, lent for the call.
    have::HARNESS_EFFECT.then(|| unsafe { harness_effect(declared, mask.as_ptr(), mask.len(), effect) })
}

pub fn mode(placed: Placed, mask: &[u8], offset: usize) -> Option<u8> {
    // SAFETY: as above.
    have::HARNESS_MODE.then(|| unsafe { harness_mode(placed, mask.as_ptr(), mask.len(), offset) })
}

pub fn view(placed: Placed, index: usize, live: &[u8], power: &[u8], from_live: bool) -> Option<ViewCopy> {
    // SAFETY: as above, for each of the two.
    have::HARNESS_VIEW.then(|| unsafe {
        harness_view(placed, index, live.as_ptr(), live.len(), power.as_ptr(), power.len(), from_live)
    })
}

pub fn snapshot(placed: Placed, image: &[u8], index: usize) -> Option<Snapshot> {
    // SAFETY: as above.
    have::HARNESS_SNAPSHOT.then(|| unsafe { harness_snapshot(placed, image.as_ptr(), image.len(), index) })
}
