//! Virtual PCI functions on a bus: config space, memory BARs, capabilities and placement, over a proved library.
//!
//! A [`Bus`] starts from the bytes of a declaration file and answers a guest's accesses.
//! Every question has an answer; a bad one is a [`Refusal`] with a number, 1 to 20; `include/voussglen.h` has the table.
//! [`raw`] has the library itself, for a caller that brings its own memory.
//!
//! ```
//! use voussglen::{Bus, Read};
//!
//! let file = std::fs::read("../../demo/run.declaration").unwrap();
//! let bus = Bus::from_declaration(&file)?;
//! assert_eq!(bus.read(3, 0x10, 4)?, Read::Value(0x8000_1000));
//! # Ok::<(), voussglen::Refusal>(())
//! ```

pub mod raw;
mod refusal;

pub use raw::{Identity, Listed, PlacedEffect, SlotReport};
pub use refusal::{Place, Refusal};

/// A bus: an aperture, and up to 8 functions by device number.
#[derive(Clone, Debug, PartialEq, Eq)]
pub struct Bus {
    raw: Box<raw::Bus>,
}

/// What a read gives.
#[derive(Clone, Debug, PartialEq, Eq)]
pub enum Read {
    /// The bytes, little-endian. A device that is not declared reads all ones.
    Value(u64),
    /// The read is inside an effect, which the caller carries out.
    Effect(Effect),
}

/// What a write did.
#[derive(Clone, Debug, PartialEq, Eq)]
pub enum Written {
    /// Bits were stored where the mask has them.
    Stored,
    /// The device is not declared.
    Dropped,
    /// The BAR's register shows its size mask now.
    Probing { slot: usize },
    /// The BAR lies at `address` now.
    Moved { slot: usize, address: u64 },
    /// The BAR was not moved: it lies at `address` still.
    Kept { slot: usize, address: u64 },
    /// The write is inside an effect, which the caller carries out; nothing changed.
    Effect(Effect),
}

/// The effect that an access is inside.
#[derive(Clone, Debug, PartialEq, Eq)]
pub struct Effect {
    pub capability_id: u8,
    pub region: PlacedEffect,
    /// Of the access, from the capability's start.
    pub offset: u16,
    /// Of the access, from the region's own start; this plus the width is at most the region's length.
    pub region_offset: u16,
    /// A copy of the capability's live body.
    pub body: Vec<u8>,
}

/// The BAR that holds a memory access.
#[derive(Clone, Copy, Debug, PartialEq, Eq)]
pub struct Hit {
    pub device: u8,
    pub slot: usize,
    /// Of the access in the BAR.
    pub offset: u64,
}

/// What a guest finds of a device.
#[derive(Clone, Debug, PartialEq, Eq)]
pub struct Report {
    pub identity: Identity,
    /// 1 to 4; 0 without INTx.
    pub pin: u8,
    /// By slot; none where it is empty. A BAR of 4 GiB counts as empty.
    pub slots: [Option<SlotReport>; raw::SLOTS],
    /// The capability list, in its order.
    pub capabilities: Vec<Listed>,
}

impl Bus {
    /// The bus that a declaration file declares, or refusal 1 to 17.
    pub fn from_declaration(file: &[u8]) -> Result<Bus, Refusal> {
        // SAFETY: all zero bytes are a value of it, the empty bus.
        let mut bus = Bus { raw: Box::new(unsafe { std::mem::zeroed() }) };
        // SAFETY: the bus is ours alone, and the file is a slice.
        let started = unsafe { raw::vg_start(&mut *bus.raw, file.as_ptr(), file.len()) };
        let place = match started.in_file {
            true => Place::Offset(started.offset),
            false => Place::Index { device: started.device, index: started.index },
        };
        accepted(started.refusal, place).map(|()| bus)
    }

    /// Reads `width` bytes (1, 2 or 4) of a device's config space, or refusal 18 or 19.
    pub fn read(&self, device: usize, offset: usize, width: usize) -> Result<Read, Refusal> {
        let mut body = NO_BODY;
        // SAFETY: the bus is lent and the body is ours alone.
        let got = unsafe { raw::vg_read(&*self.raw, &mut body, raw::ReadAsk { device, offset, width }) };
        accepted(got.refusal, Place::Nowhere)?;
        Ok(match got.kind {
            raw::KIND_VALUE => Read::Value(got.value),
            raw::KIND_EFFECT => Read::Effect(Effect::told(got.effect, &body)),
            kind => no_such_kind(kind),
        })
    }

    /// Writes `width` bytes (1, 2 or 4) of `value` to a device's config space, or refusal 18, 19 or 20 and no change.
    pub fn write(&mut self, device: usize, offset: usize, width: usize, value: u64) -> Result<Written, Refusal> {
        let mut body = NO_BODY;
        // SAFETY: the bus and the body are ours alone.
        let done = unsafe { raw::vg_write(&mut *self.raw, &mut body, raw::WriteAsk { device, offset, width, value }) };
        let place = match done.refusal {
            refusal::REVISION_EXHAUSTED => Place::Device(done.device),
            _ => Place::Nowhere,
        };
        accepted(done.refusal, place)?;
        let (slot, address) = (done.slot, done.address);
        Ok(match done.kind {
            raw::KIND_STORED => Written::Stored,
            raw::KIND_DROPPED => Written::Dropped,
            raw::KIND_PROBING => Written::Probing { slot },
            raw::KIND_MOVED => Written::Moved { slot, address },
            raw::KIND_KEPT => Written::Kept { slot, address },
            raw::KIND_EFFECT => Written::Effect(Effect::told(done.effect, &body)),
            kind => no_such_kind(kind),
        })
    }

    /// The BAR that holds all `width` bytes (1, 2, 4 or 8) at an address, where command bit 1 is set; or refusal 18.
    pub fn lookup(&self, address: u64, width: usize) -> Result<Option<Hit>, Refusal> {
        // SAFETY: the bus is lent.
        let found = unsafe { raw::vg_lookup(&*self.raw, raw::LookupAsk { address, width }) };
        accepted(found.refusal, Place::Nowhere)?;
        Ok(match found.kind {
            raw::KIND_HIT => Some(Hit { device: found.device, slot: found.slot, offset: found.offset }),
            raw::KIND_MISS => None,
            kind => no_such_kind(kind),
        })
    }

    /// Restores config space and BARs, ends probing, and counts. At refusal 20 a revision stayed; all else is done.
    pub fn reset(&mut self) -> Result<(), Refusal> {
        // SAFETY: the bus is ours alone.
        let done = unsafe { raw::vg_reset(&mut *self.raw) };
        accepted(done.refusal, Place::Device(done.device))
    }

    /// What a guest finds of a device, none where it is absent. Where no BAR of the device probes, the bus stays as it was.
    pub fn enumerate(&mut self, device: usize) -> Option<Report> {
        // SAFETY: the bus is ours alone.
        let found = unsafe { raw::vg_enumerate(&mut *self.raw, device) };
        found.present.then(|| Report {
            identity: found.identity,
            pin: found.pin,
            slots: found.slots.map(|slot| (slot.size != 0).then_some(slot)),
            capabilities: found.list[..found.list_count].to_vec(),
        })
    }

    /// The library's own struct, to read: aperture, devices, images, BARs, revisions.
    pub fn raw(&self) -> &raw::Bus {
        &self.raw
    }

    /// A bus from a struct that [`Bus::raw`] gave, to bring back one that was saved.
    /// Every other struct gets its answers too, but that ranges are apart and enumeration is true is promised only of a bus that a file started.
    pub fn from_raw(raw: raw::Bus) -> Bus {
        Bus { raw: Box::new(raw) }
    }
}

const NO_BODY: raw::Snapshot = raw::Snapshot { length: 0, bytes: [0; raw::LONGEST_BODY] };

impl Effect {
    fn told(told: raw::EffectTold, body: &raw::Snapshot) -> Effect {
        Effect {
            capability_id: told.capability_id,
            region: told.region,
            offset: told.offset,
            region_offset: told.region_offset,
            body: body.bytes[..usize::from(body.length)].to_vec(),
        }
    }
}

/// An answer's number, 0 where nothing is refused.
fn accepted(number: u8, place: Place) -> Result<(), Refusal> {
    match number {
        refusal::ACCEPTED => Ok(()),
        _ => Err(Refusal { number, place }),
    }
}

fn no_such_kind(kind: u8) -> ! {
    unreachable!("the library gives no answer of kind {kind} here")
}

#[cfg(test)]
mod tests {
    use super::*;

    /// No test can count so far: the revision is put there.
    #[test]
    fn an_exhausted_revision() {
        let mut bus = Bus::from_declaration(include_bytes!("../../../demo/run.declaration")).unwrap();
        let mut raw = *bus.raw();
        raw.functions[1].revision = u64::MAX;
        bus = Bus::from_raw(raw);
        let refused = Refusal { number: 20, place: Place::Device(5) };
        let before = bus.clone();
        assert_eq!(bus.write(5, 0x04, 2, 2), Err(refused));
        assert_eq!(bus, before);
        assert_eq!(bus.write(3, 0x04, 2, 2), Ok(Written::Stored));
        assert_eq!(bus.reset(), Err(refused));
        assert_eq!(bus.read(3, 0x04, 2), Ok(Read::Value(0)));
        assert_eq!((bus.raw.functions[0].revision, bus.raw.functions[1].revision), (2, u64::MAX));
    }
}
