//! What questions are made of. Names and units are those of document 01.

/// One effect of a capability; `offset` counts from the capability's start.
#[derive(Clone, Copy, Debug, PartialEq, Eq)]
pub struct Effect {
    pub id: u16,
    pub offset: u8,
    pub length: u8,
    /// 1 read, 2 write, 3 both.
    pub access: u8,
}

/// One declared capability; `mask` is as long as `body`.
#[derive(Clone, Debug, PartialEq, Eq)]
pub struct Capability {
    pub id: u8,
    pub body: Vec<u8>,
    pub mask: Vec<u8>,
    pub effects: Vec<Effect>,
}

#[derive(Clone, Copy, Debug, PartialEq, Eq)]
pub struct ConfigByte {
    pub offset: u8,
    pub value: u8,
    pub mask: u8,
}

#[derive(Clone, Copy, Debug, Default, PartialEq, Eq)]
pub struct Identity {
    pub vendor: u16,
    pub device_id: u16,
    pub subsystem_vendor: u16,
    pub subsystem_id: u16,
    pub revision: u8,
    pub base_class: u8,
    pub subclass: u8,
    pub interface: u8,
}

#[derive(Clone, Copy, Debug, PartialEq, Eq)]
pub struct Intx {
    /// 1 to 4.
    pub pin: u8,
    pub line: u8,
}

/// A placed BAR.
#[derive(Clone, Copy, Debug, PartialEq, Eq)]
pub struct Bar {
    pub slot: u8,
    pub size: u64,
    pub address: u32,
}

/// A BAR in the middle of its life.
#[derive(Clone, Copy, Debug, PartialEq, Eq)]
pub struct BarNow {
    pub size: u64,
    pub address: u32,
    pub probing: bool,
}

/// A BAR that is not as at power-on when the steps begin.
#[derive(Clone, Copy, Debug, PartialEq, Eq)]
pub struct Now {
    pub slot: u8,
    /// A multiple of size, as an accepted relocation leaves it.
    pub address: u32,
    pub probing: bool,
}

#[derive(Clone, Copy, Debug, PartialEq, Eq)]
pub enum Request {
    Auto,
    Fixed(u64),
}

/// A BAR before placement.
#[derive(Clone, Copy, Debug, PartialEq, Eq)]
pub struct Wish {
    pub device: u8,
    pub slot: u8,
    pub size: u64,
    pub request: Request,
}

/// From `start` up to and without `end`.
#[derive(Clone, Copy, Debug, PartialEq, Eq)]
pub struct Aperture {
    pub start: u64,
    pub end: u64,
}

/// One function, its BARs placed.
#[derive(Clone, Debug, Default, PartialEq, Eq)]
pub struct Function {
    pub identity: Identity,
    pub intx: Option<Intx>,
    pub bars: Vec<Bar>,
    pub config_bytes: Vec<ConfigByte>,
    pub capabilities: Vec<Capability>,
}

/// One step on one function.
#[derive(Clone, Copy, Debug, PartialEq, Eq)]
pub enum Op {
    Read {
        offset: u16,
        width: u8,
    },
    /// `accept` is the answer to a relocation, should the write be one.
    Write {
        offset: u16,
        width: u8,
        value: u64,
        accept: bool,
    },
    Reset,
}

/// One step on the bus. Any number can be asked.
#[derive(Clone, Copy, Debug, PartialEq, Eq)]
pub enum BusOp {
    Read { device: u64, offset: u64, width: u64 },
    Write { device: u64, offset: u64, width: u64, value: u64 },
    Lookup { address: u64, width: u64 },
    Reset,
}

/// One function on the bus.
#[derive(Clone, Debug, PartialEq, Eq)]
pub struct Card {
    pub device: u8,
    /// The revision to start from; 0 in document 01, more to reach the counter's end.
    pub revision: u64,
    pub function: Function,
}
