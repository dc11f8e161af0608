//! The library's structs and functions as include/voussglen.h declares them; the header says what each field means.

use std::mem::{offset_of, size_of};

pub const FUNCTIONS: usize = 8;
pub const SLOTS: usize = 6;
pub const CAPABILITIES: usize = 16;
pub const EFFECTS: usize = 32;
pub const CONFIG_SPACE: usize = 256;
pub const LONGEST_BODY: usize = 253;

pub const KIND_REFUSED: u8 = 0;
pub const KIND_VALUE: u8 = 1;
pub const KIND_STORED: u8 = 2;
pub const KIND_DROPPED: u8 = 3;
pub const KIND_PROBING: u8 = 4;
pub const KIND_MOVED: u8 = 5;
pub const KIND_KEPT: u8 = 6;
pub const KIND_EFFECT: u8 = 7;
pub const KIND_HIT: u8 = 8;
pub const KIND_MISS: u8 = 9;

/// Declares structs as C lays them out, and holds each to its size and the offset of every field.
macro_rules! structs {
    ($($(#[$about:meta])* $name:ident $size:literal { $($(#[$says:meta])* $field:ident $at:literal: $type:ty,)* })*) => {
        $(
            $(#[$about])*
            #[repr(C)]
            #[derive(Clone, Copy, Debug, PartialEq, Eq)]
            pub struct $name {
                $($(#[$says])* pub $field: $type,)*
            }

            const _: () = {
                assert!(size_of::<$name>() == $size);
                $(assert!(offset_of!($name, $field) == $at);)*
            };
        )*
    };
}

structs! {
    Aperture 16 {
        start 0: u64,
        end 8: u64,
    }

    Plan 24 {
        slot 0: u8,
        size 8: u64,
        address 16: u64,
    }

    BarState 40 {
        plan 0: Plan,
        address 24: u64,
        probing 32: bool,
    }

    PlacedCapability 6 {
        id 0: u8,
        offset 2: u16,
        length 4: u8,
    }

    /// An effect: a region of a capability whose accesses the caller carries out.
    PlacedEffect 6 {
        /// As declared; no other effect of the function has it.
        id 0: u16,
        /// The index of its capability.
        capability 2: u8,
        /// Where it starts, from its capability's start.
        offset 3: u8,
        /// How many bytes it has.
        length 4: u8,
        /// 1 read, 2 write, 3 both.
        access 5: u8,
    }

    Placed 304 {
        capabilities 0: [PlacedCapability; CAPABILITIES],
        count 96: usize,
        effects 104: [PlacedEffect; EFFECTS],
        effect_count 296: usize,
    }

    FunctionState 1320 {
        live 0: [u8; CONFIG_SPACE],
        power_on 256: [u8; CONFIG_SPACE],
        mask 512: [u8; CONFIG_SPACE],
        bars 768: [BarState; SLOTS],
        placed 1008: Placed,
        revision 1312: u64,
    }

    Bus 10592 {
        aperture 0: Aperture,
        devices 16: [u8; FUNCTIONS],
        functions 24: [FunctionState; FUNCTIONS],
        count 10584: usize,
    }

    Snapshot 254 {
        length 0: u8,
        bytes 1: [u8; LONGEST_BODY],
    }

    EffectTold 12 {
        capability_id 0: u8,
        region 2: PlacedEffect,
        offset 8: u16,
        region_offset 10: u16,
    }

    ReadAsk 24 {
        device 0: usize,
        offset 8: usize,
        width 16: usize,
    }

    ReadResult 32 {
        kind 0: u8,
        refusal 1: u8,
        value 8: u64,
        effect 16: EffectTold,
    }

    WriteAsk 32 {
        device 0: usize,
        offset 8: usize,
        width 16: usize,
        value 24: u64,
    }

    WriteResult 40 {
        kind 0: u8,
        refusal 1: u8,
        device 2: u8,
        slot 8: usize,
        address 16: u64,
        effect 24: EffectTold,
    }

    LookupAsk 16 {
        address 0: u64,
        width 8: usize,
    }

    LookupResult 24 {
        kind 0: u8,
        refusal 1: u8,
        device 2: u8,
        slot 8: usize,
        offset 16: u64,
    }

    ResetResult 2 {
        refusal 0: u8,
        device 1: u8,
    }

    StartResult 24 {
        refusal 0: u8,
        in_file 1: bool,
        device 2: u8,
        offset 8: usize,
        index 16: usize,
    }

    /// Who made a function, and what it is.
    Identity 12 {
        vendor 0: u16,
        /// The device id.
        device 2: u16,
        subsystem_vendor 4: u16,
        /// The subsystem id.
        subsystem 6: u16,
        revision 8: u8,
        base_class 9: u8,
        subclass 10: u8,
        programming_interface 11: u8,
    }

    /// A BAR that was found.
    SlotReport 16 {
        size 0: u64,
        address 8: u64,
    }

    /// A capability that was found.
    Listed 2 {
        offset 0: u8,
        id 1: u8,
    }

    Report 152 {
        present 0: bool,
        identity 2: Identity,
        pin 14: u8,
        slots 16: [SlotReport; SLOTS],
        list 112: [Listed; CAPABILITIES],
        list_count 144: usize,
    }
}

// A lent struct is a pointer that is not null, and no two overlap; a slice is its pointer, then its length.
extern "C" {
    pub fn vg_start(bus: *mut Bus, file: *const u8, length: usize) -> StartResult;
    pub fn vg_read(bus: *const Bus, body: *mut Snapshot, ask: ReadAsk) -> ReadResult;
    pub fn vg_write(bus: *mut Bus, body: *mut Snapshot, ask: WriteAsk) -> WriteResult;
    pub fn vg_lookup(bus: *const Bus, ask: LookupAsk) -> LookupResult;
    pub fn vg_reset(bus: *mut Bus) -> ResetResult;
    pub fn vg_enumerate(bus: *mut Bus, device: usize) -> Report;
}
