//! The structs that cross, field by field as in crates/*/src. All go by value.

/// The lengths of the arrays: document 01's limits, its config space, and the part of it that bodies can lie in.
pub const FUNCTIONS: usize = 8;
pub const SLOTS: usize = 6;
pub const KEYS: usize = FUNCTIONS * SLOTS;
pub const CAPABILITIES: usize = 16;
pub const EFFECTS: usize = 32;
pub const CONFIG_BYTES: usize = 32;
pub const SPACE: usize = 0x100;
pub const HEADER: usize = 0x40;
pub const BODY_SPACE: usize = SPACE - HEADER;
pub const LONGEST_BODY: usize = 253;

#[repr(C)]
#[derive(Clone, Copy, Debug, Default, PartialEq, Eq)]
pub struct ConfigOffset(pub u16);

#[repr(C)]
#[derive(Clone, Copy, Debug, Default, PartialEq, Eq)]
pub struct Slot(pub u8);

/// A size of 0 is no BAR.
#[repr(C)]
#[derive(Clone, Copy, Debug, Default, PartialEq, Eq)]
pub struct Plan {
    pub slot: Slot,
    pub size: u64,
    pub address: u64,
}

#[repr(C)]
#[derive(Clone, Copy, Debug, Default, PartialEq, Eq)]
pub struct BarState {
    pub plan: Plan,
    pub address: u64,
    pub probing: bool,
}

#[repr(C)]
#[derive(Clone, Copy, Debug, Default, PartialEq, Eq)]
pub struct Bars {
    pub bars: [BarState; SLOTS],
}

/// `address` is 0 for a probe.
#[repr(C)]
#[derive(Clone, Copy, Debug, Default, PartialEq, Eq)]
pub struct BarAsked {
    pub probe: bool,
    pub address: u64,
}

#[repr(C)]
#[derive(Clone, Copy, Debug, Default, PartialEq, Eq)]
pub struct PlacedCapability {
    pub id: u8,
    pub offset: ConfigOffset,
    pub length: u8,
}

#[repr(C)]
#[derive(Clone, Copy, Debug, Default, PartialEq, Eq)]
pub struct PlacedEffect {
    pub id: u16,
    pub capability: u8,
    pub offset: u8,
    pub length: u8,
    pub access: u8,
}

#[repr(C)]
#[derive(Clone, Copy, Debug, Default, PartialEq, Eq)]
pub struct Placed {
    pub capabilities: [PlacedCapability; CAPABILITIES],
    pub count: usize,
    pub effects: [PlacedEffect; EFFECTS],
    pub effect_count: usize,
}

/// As declared, in the order of declaration.
#[repr(C)]
#[derive(Clone, Copy, Debug, Default, PartialEq, Eq)]
pub struct DeclaredNumbers {
    pub ids: [u8; CAPABILITIES],
    pub lengths: [u8; CAPABILITIES],
    pub count: usize,
    pub effects: [PlacedEffect; EFFECTS],
    pub effect_count: usize,
}

#[repr(C)]
#[derive(Clone, Copy, Debug)]
pub struct LaidOut {
    pub refusal: u8,
    pub index: usize,
    pub placed: Placed,
}

#[repr(C)]
#[derive(Clone, Copy, Debug)]
pub struct Snapshot {
    pub length: u8,
    pub bytes: [u8; LONGEST_BODY],
}

#[repr(C)]
#[derive(Clone, Copy, Debug)]
pub struct ViewCopy {
    pub found: bool,
    pub body: Snapshot,
}

#[repr(C)]
#[derive(Clone, Copy, Debug)]
pub struct Touched {
    pub refusal: u8,
    pub inside: bool,
    pub capability_id: u8,
    pub region: PlacedEffect,
    pub offset: u16,
    pub region_offset: u16,
}

#[repr(C)]
#[derive(Clone, Copy, Debug, Default, PartialEq, Eq)]
pub struct Identity {
    pub vendor: u16,
    pub device: u16,
    pub subsystem_vendor: u16,
    pub subsystem: u16,
    pub revision: u8,
    pub base_class: u8,
    pub subclass: u8,
    pub programming_interface: u8,
}

#[repr(C)]
#[derive(Clone, Copy, Debug, Default, PartialEq, Eq)]
pub struct ConfigByte {
    pub offset: ConfigOffset,
    pub value: u8,
    pub mask: u8,
}

/// Bodies and masks lie at their places in config space, from 0x40 on.
#[repr(C)]
#[derive(Clone, Copy, Debug)]
pub struct ContentsNumbers {
    pub identity: Identity,
    pub has_intx: bool,
    pub pin: u8,
    pub line: u8,
    pub bytes: [ConfigByte; CONFIG_BYTES],
    pub byte_count: usize,
    pub bodies: [u8; BODY_SPACE],
    pub masks: [u8; BODY_SPACE],
}

/// `index` is 0 where nothing is refused.
#[repr(C)]
#[derive(Clone, Copy, Debug)]
pub struct BytesOut {
    pub refusal: u8,
    pub index: usize,
}

#[repr(C)]
#[derive(Clone, Copy, Debug)]
pub struct PowerOn {
    pub image: [u8; SPACE],
    pub mask: [u8; SPACE],
}

#[repr(C)]
#[derive(Clone, Copy, Debug)]
pub struct FunctionState {
    pub live: [u8; SPACE],
    pub power_on: [u8; SPACE],
    pub mask: [u8; SPACE],
    pub bars: [BarState; SLOTS],
    pub placed: Placed,
    pub revision: u64,
}

#[repr(C)]
#[derive(Clone, Copy, Debug)]
pub struct ReadOut {
    pub refusal: u8,
    pub inside: bool,
    pub value: u64,
    pub capability_id: u8,
    pub region: PlacedEffect,
    pub offset: u16,
    pub region_offset: u16,
    pub body: Snapshot,
}

/// Kind 0 stored, 1 probing, 2 candidate, 3 effect.
#[repr(C)]
#[derive(Clone, Copy, Debug)]
pub struct WriteOut {
    pub refusal: u8,
    pub kind: u8,
    pub slot: usize,
    pub address: u64,
    pub capability_id: u8,
    pub region: PlacedEffect,
    pub offset: u16,
    pub region_offset: u16,
    pub body: Snapshot,
    pub state: FunctionState,
}

#[repr(C)]
#[derive(Clone, Copy, Debug)]
pub struct ResetOut {
    pub refusal: u8,
    pub state: FunctionState,
}

/// Place `i * SLOTS + slot` of the arrays is that slot of function `i`; functions by ascending device; size 0 is no BAR.
#[repr(C)]
#[derive(Clone, Copy, Debug)]
pub struct PlaceNumbers {
    pub start: u64,
    pub end: u64,
    pub count: usize,
    pub devices: [u8; FUNCTIONS],
    pub sizes: [u64; KEYS],
    pub fixed: [bool; KEYS],
    pub addresses: [u64; KEYS],
}

#[repr(C)]
#[derive(Clone, Copy, Debug)]
pub struct PlacedOut {
    pub refusal: u8,
    pub device: u8,
    pub slot: u8,
    pub addresses: [u64; KEYS],
}

// Sizes by the rules of C, worked out by hand: a field lost or of another width shows here.
const _: () = assert!(size_of::<BarState>() == 40);
const _: () = assert!(size_of::<Placed>() == 304);
const _: () = assert!(size_of::<Snapshot>() == 254);
const _: () = assert!(size_of::<ViewCopy>() == 255);
const _: () = assert!(size_of::<Touched>() == 14);
const _: () = assert!(size_of::<DeclaredNumbers>() == 240);
const _: () = assert!(size_of::<ContentsNumbers>() == 536);
const _: () = assert!(size_of::<BytesOut>() == 16);
const _: () = assert!(size_of::<FunctionState>() == 1320);
const _: () = assert!(size_of::<ReadOut>() == 288);
const _: () = assert!(size_of::<WriteOut>() == 1616);
const _: () = assert!(size_of::<PlaceNumbers>() == 848);
const _: () = assert!(size_of::<PlacedOut>() == 392);
