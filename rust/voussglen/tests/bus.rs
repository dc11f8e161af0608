//! The Run case of document 01, and a guest's story on its bus.

use voussglen::{Bus, Effect, Hit, Identity, Listed, Place, PlacedEffect, Read, Refusal, SlotReport, Written};

const RUN: &[u8] = include_bytes!("../../../demo/run.declaration");

/// Device 1 with pin 2 and line 9, a capability with an effect to read at 0x40, one with no body at 0x48.
const WITH_EFFECT: &[u8] = &[
    1, 16, 0, 0, 0, 0, 0x80, 0, 0, 0, 0, 0, 0, 1, 0x80, 0, 0, 0, 0, // aperture
    2, 13, 0, 1, 0x34, 0x12, 0x78, 0x56, 0xbc, 0x9a, 0xf0, 0xde, 7, 0x0c, 0x03, 0x30, // function
    3, 2, 0, 2, 9, // INTx
    6, 9, 0, 0x09, 0xa0, 0xa1, 0xa2, 0xa3, 0xff, 0, 0, 0, // capability
    7, 5, 0, 0x01, 0x02, 3, 2, 1, // effect
    6, 1, 0, 0x05, // capability
];

fn run() -> Bus {
    Bus::from_declaration(RUN).unwrap()
}

fn value(bus: &Bus, device: usize, offset: usize, width: usize) -> u64 {
    match bus.read(device, offset, width) {
        Ok(Read::Value(value)) => value,
        other => panic!("{other:?}"),
    }
}

fn nowhere(number: u8) -> Refusal {
    Refusal { number, place: Place::Nowhere }
}

#[test]
fn the_run_case() {
    let mut bus = run();
    assert_eq!(RUN.len(), 114);
    assert_eq!((bus.raw().aperture.start, bus.raw().aperture.end), (0x8000_0000, 0x8001_0000));
    assert_eq!(value(&bus, 3, 0x10, 4), 0x8000_1000);
    assert_eq!(value(&bus, 3, 0x14, 4), 0x8000_0000);
    assert_eq!(value(&bus, 5, 0x10, 4), 0x8000_4000);
    let identity = Identity {
        vendor: 0x1af4,
        device: 0x1003,
        subsystem_vendor: 0x1af4,
        subsystem: 3,
        revision: 1,
        base_class: 2,
        subclass: 0,
        programming_interface: 0,
    };
    let before = bus.clone();
    let report = bus.enumerate(3).unwrap();
    assert_eq!(report.identity, identity);
    assert_eq!(report.pin, 0);
    assert_eq!(report.slots[0], Some(SlotReport { size: 0x1000, address: 0x8000_1000 }));
    assert_eq!(report.slots[1], Some(SlotReport { size: 0x1000, address: 0x8000_0000 }));
    assert_eq!(report.slots[2..], [None; 4]);
    assert_eq!(report.capabilities, []);
    let slots = bus.enumerate(5).unwrap().slots;
    assert_eq!(slots, [Some(SlotReport { size: 0x4000, address: 0x8000_4000 }), None, None, None, None, None]);
    assert_eq!(bus.enumerate(4), None);
    assert_eq!(bus, before);
}

#[test]
fn probe_relocate_reset() {
    let mut bus = run();
    let at = |offset| Some(Hit { device: 3, slot: 0, offset });
    assert_eq!(bus.lookup(0x8000_1004, 4), Ok(None));
    assert_eq!(bus.write(3, 0x04, 2, 0xffff), Ok(Written::Stored));
    assert_eq!(value(&bus, 3, 0x04, 2), 0x0406);
    assert_eq!(bus.raw().functions[0].revision, 1);
    assert_eq!(bus.lookup(0x8000_1004, 4), Ok(at(4)));

    assert_eq!(bus.write(3, 0x10, 4, 0xffff_ffff), Ok(Written::Probing { slot: 0 }));
    assert_eq!(value(&bus, 3, 0x10, 4), 0xffff_f000);
    assert_eq!(bus.lookup(0x8000_1004, 4), Ok(at(4)));
    assert_eq!(bus.write(3, 0x10, 4, 0x8000_2000), Ok(Written::Moved { slot: 0, address: 0x8000_2000 }));
    assert_eq!(value(&bus, 3, 0x10, 4), 0x8000_2000);
    assert_eq!(bus.lookup(0x8000_1004, 4), Ok(None));
    assert_eq!(bus.lookup(0x8000_2ff8, 8), Ok(at(0xff8)));
    assert_eq!(bus.write(3, 0x10, 4, 0x8000_4000), Ok(Written::Kept { slot: 0, address: 0x8000_2000 }));

    assert_eq!(bus.reset(), Ok(()));
    assert_eq!(value(&bus, 3, 0x10, 4), 0x8000_1000);
    assert_eq!(value(&bus, 3, 0x04, 2), 0);
    assert_eq!(bus.raw().functions[0].revision, 2);
    assert_eq!(bus.raw().functions[1].revision, 1);
}

#[test]
fn undeclared_devices() {
    let mut bus = run();
    assert_eq!(value(&bus, 4, 0, 2), 0xffff);
    assert_eq!(value(&bus, usize::MAX, 0, 4), 0xffff_ffff);
    assert_eq!(bus.write(4, 0x04, 2, 2), Ok(Written::Dropped));
    assert_eq!(bus, run());
}

#[test]
fn refused_accesses() {
    let mut bus = run();
    assert_eq!(bus.read(3, 0x100, 4), Err(nowhere(18)));
    assert_eq!(bus.read(3, 1, 2), Err(nowhere(18)));
    assert_eq!(bus.write(3, 0x10, 8, 0), Err(nowhere(18)));
    assert_eq!(bus.lookup(0, 3), Err(nowhere(18)));
    assert_eq!(bus, run());
}

#[test]
fn refused_files() {
    let at = |number, place| Err(Refusal { number, place });
    assert_eq!(Bus::from_declaration(&[]), at(3, Place::Offset(0)));
    assert_eq!(Bus::from_declaration(&RUN[..113]), at(1, Place::Offset(93)));
    let mut file = RUN.to_vec();
    file[39] = 1; // slot 0 fixed at 0x80000000 too
    file[51] = 0x80;
    let refused = Bus::from_declaration(&file);
    assert_eq!(refused, at(16, Place::Index { device: 3, index: 1 }));
    let words = "refused 16 at device 3, index 1: fixed range overlaps one placed before";
    assert_eq!(refused.unwrap_err().to_string(), words);
}

#[test]
fn effects() {
    let mut bus = Bus::from_declaration(WITH_EFFECT).unwrap();
    let region = PlacedEffect { id: 0x0201, capability: 0, offset: 3, length: 2, access: 1 };
    let effect = |offset, region_offset, first| Effect {
        capability_id: 9,
        region,
        offset,
        region_offset,
        body: vec![first, 0xa1, 0xa2, 0xa3],
    };
    assert_eq!(bus.read(1, 0x43, 1), Ok(Read::Effect(effect(3, 0, 0xa0))));
    assert_eq!(bus.read(1, 0x44, 1), Ok(Read::Effect(effect(4, 1, 0xa0))));
    assert_eq!(bus.read(1, 0x42, 2), Err(nowhere(19)));
    assert_eq!(bus.write(1, 0x43, 1, 0), Err(nowhere(19)));
    assert_eq!(bus.write(1, 0x42, 1, 0x5c), Ok(Written::Stored));
    assert_eq!(bus.read(1, 0x43, 1), Ok(Read::Effect(effect(3, 0, 0x5c))));
    let report = bus.enumerate(1).unwrap();
    assert_eq!(report.pin, 2);
    assert_eq!(report.capabilities, [Listed { offset: 0x40, id: 9 }, Listed { offset: 0x48, id: 5 }]);
}
