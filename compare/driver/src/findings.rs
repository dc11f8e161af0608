//! The cases of document 01 and the findings of docs/DIFFERENCES.md, replayed on both sides.

use driver::Shortened;
use model::Model;
use oracle::{Oracle, beyond};
use rules::*;

use crate::cases;

/// True if everything is as noted.
pub fn all_as_noted() -> bool {
    let mut fine = cases_hold();
    println!("\nThe Rust against document 01");
    for (what, rust, noted) in differences() {
        fine &= told(what, &rust, noted);
    }
    println!("\nBoth agree, and the PCI Local Bus Specification 3.0 says otherwise");
    for (what, question, noted) in agreed() {
        let (rust, model) = (ask(&mut Oracle, &question), ask(&mut Model, &question));
        let same = rust.as_ref().zip(model.as_ref()).is_some_and(|(rust, model)| agree(rust, model));
        // The model says more of a BAR write than the root of the Rust.
        fine &= told(what, &seen(model.as_ref()), noted) && same;
        if !same {
            println!("   NOT THE SAME: the Rust {}", seen(rust.as_ref()));
        }
    }
    fine
}

/// Each case of document 01, on both sides.
fn cases_hold() -> bool {
    let cases = cases::all();
    let holds = |side: &mut dyn Rules, question: &Question, reply: &Reply| ask(side, question).as_ref() == Some(reply);
    let mut wrong = cases
        .iter()
        .filter(|(_, question, reply)| !holds(&mut Oracle, question, reply) || !holds(&mut Model, question, reply));
    if let Some((name, question, _)) = wrong.next() {
        println!("!! {name}: {}", question.shortened());
        return false;
    }
    println!("P1 to P10 and the run of document 01: {} cases, both sides answer as it says", cases.len());
    true
}

fn told(what: &str, now: &str, noted: &str) -> bool {
    println!("{} {what}: {now}", if now == noted { "  " } else { "!!" });
    if now != noted {
        println!("   noted: {noted}");
    }
    now == noted
}

/// Input, what the Rust says, and what the notes say that it says.
fn differences() -> Vec<(&'static str, String, &'static str)> {
    let place = |wishes: &[Wish]| format!("{:?}", Oracle.place(Aperture { start: 0, end: 64 }, wishes));
    let fixed = |slot, size, address| Wish { device: 0, slot, size, request: Request::Fixed(address) };
    vec![
        (
            "1 reset of the bus, a revision at its largest",
            beyond::reset_at_largest(),
            "CommandRevisionExhausted, command 2",
        ),
        ("2 vendor 0xffff and a BAR with no room", beyond::absent_vendor_without_room(), "BarApertureExhausted"),
        ("3 offsets of config bytes", beyond::config_byte_offsets(), "[e] and from 40 true; twice InvalidConfigPatch"),
        ("4 one more than each limit", beyond::beyond_the_limits(), "accepted"),
        (
            "5 first node on device 1, second on device 0",
            beyond::order_of_functions(),
            "device 1 at 0x0, device 0 at 0x10",
        ),
        ("6 effect without an endpoint", beyond::effect_without_endpoint(), "ConfigEffectUnavailable"),
        ("6 status with INTx", beyond::status_with_intx(), "value 0x0, to be asked for bits 0x8"),
        ("7 device 32", beyond::device_32(), "InvalidAddress"),
        ("8 view in images of 0x42 and 0x43 bytes", beyond::short_images(), "a panic, [7]"),
        (
            "10 slot 1 overlaps, slot 2 is misaligned",
            place(&[fixed(0, 16, 0), fixed(1, 16, 0), fixed(2, 16, 8)]),
            "Some(Err(PlaceRefusal { number: 16, device: 0, slot: 1 }))",
        ),
        ("11 'multiple effects' and 'crosses a boundary'", beyond::unreachable_errors(), "0 of 26880"),
    ]
}

fn seen(reply: Option<&Reply>) -> String {
    match reply {
        Some(Reply::Story(story)) => format!("{:x?}", story.answers),
        Some(Reply::Image(image)) => format!("0x10 {:x?}", &image.bytes[0x10..0x14]),
        other => format!("{other:x?}"),
    }
}

fn write(offset: u64, width: u64, value: u64) -> BusOp {
    BusOp::Write { device: 0, offset, width, value }
}

fn read(offset: u64, width: u64) -> BusOp {
    BusOp::Read { device: 0, offset, width }
}

/// One function with a BAR of 16 bytes at 0x10, and one of 32 at 0x20, in 0 to 0x80.
fn on_bus(ops: Vec<BusOp>) -> Question {
    let bars = vec![Bar { slot: 0, size: 16, address: 0x10 }, Bar { slot: 1, size: 32, address: 0x20 }];
    let cards = vec![Card { device: 0, revision: 0, function: Function { bars, ..Function::default() } }];
    Question::Bus { aperture: Aperture { start: 0, end: 0x80 }, cards, ops }
}

/// A BAR of 0x1000 bytes at 0xffff0000, in the last 64 KiB below 4 GiB.
fn at_the_top(ops: Vec<BusOp>) -> Question {
    let bars = vec![Bar { slot: 0, size: 0x1000, address: 0xffff_0000 }];
    let cards = vec![Card { device: 0, revision: 0, function: Function { bars, ..Function::default() } }];
    Question::Bus { aperture: Aperture { start: 0xffff_0000, end: 1 << 32 }, cards, ops }
}

/// A function with nothing declared.
fn alone(ops: Vec<BusOp>) -> Question {
    let cards = vec![Card { device: 0, revision: 0, function: Function::default() }];
    Question::Bus { aperture: Aperture { start: 0, end: 16 }, cards, ops }
}

/// Input, and what both sides say by the notes.
fn agreed() -> Vec<(&'static str, Question, &'static str)> {
    let now = |size, address, probing| BarNow { size, address, probing };
    let dword = |value| Question::BarWrite { bar: now(0x1000, 0, false), lane: 0, width: 4, value };
    let intx = Some(Intx { pin: 2, line: 0 });
    let capability = |id, length| Capability { id, body: vec![0; length], mask: vec![0; length], effects: vec![] };
    vec![
        ("BAR := 0xfffffff0", dword(0xffff_fff0), "Some(BarWrite(Relocate(fffffff0)))"),
        ("BAR := 0xfffff000, size 0x1000", dword(0xffff_f000), "Some(BarWrite(Relocate(fffff000)))"),
        (
            "words 0xffff at 0x10 and at 0x12",
            on_bus(vec![write(0x10, 2, 0xffff), write(0x12, 2, 0xffff), read(0x10, 4)]),
            "[Stayed { slot: 0, address: 10 }, Stayed { slot: 0, address: 10 }, Value(10)]",
        ),
        (
            "BAR of 32 := misaligned, outside, taken",
            on_bus(vec![
                write(0x14, 4, 0x50),
                read(0x14, 4),
                write(0x14, 4, 0x80),
                read(0x14, 4),
                write(0x14, 4, 0),
                read(0x14, 4),
            ]),
            "[Stayed { slot: 1, address: 20 }, Value(20), Stayed { slot: 1, address: 20 }, Value(20), \
             Stayed { slot: 1, address: 20 }, Value(20)]",
        ),
        (
            "lookup while probing",
            on_bus(vec![write(4, 1, 2), write(0x10, 4, 0xffff_ffff), BusOp::Lookup { address: 0x10, width: 4 }]),
            "[Done, Probing { slot: 0 }, Hit { device: 0, slot: 0, offset: 0 }]",
        ),
        (
            "a byte while probing",
            on_bus(vec![write(0x10, 4, 0xffff_ffff), write(0x11, 1, 0), read(0x10, 4)]),
            "[Probing { slot: 0 }, Moved { slot: 0, address: 10 }, Value(10)]",
        ),
        ("mask of 4 GiB", Question::SizeMask { size: 1 << 32 }, "Some(Dword(0))"),
        ("interrupt line := 0x0b", alone(vec![write(0x3c, 1, 0x0b), read(0x3c, 1)]), "[Done, Value(0)]"),
        (
            "pin 2",
            Question::Function {
                function: Function { intx, ..Function::default() },
                now: vec![],
                revision: 0,
                ops: vec![Op::Read { offset: 0x3d, width: 1 }],
            },
            "[Value(2)]",
        ),
        (
            "cache line size := 0x10, latency timer := 0x20",
            alone(vec![write(0x0c, 2, 0x2010), read(0x0c, 2)]),
            "[Done, Value(0)]",
        ),
        (
            "capability ids 0 and 5, empty bodies",
            Question::Layout { capabilities: vec![capability(0, 0), capability(5, 0)] },
            "Some(Layout(Ok([40, 44])))",
        ),
        ("offset 1, width 2", Question::Check { offset: 1, width: 2 }, "Some(Yes(false))"),
        ("memory enable := 1 with no BAR", alone(vec![write(4, 1, 2), read(4, 1)]), "[Done, Value(2)]"),
        (
            "enumeration of a BAR that is probing",
            at_the_top(vec![
                write(0x10, 4, 0xffff_ffff),
                read(0x10, 4),
                write(0x10, 4, 0xffff_ffff),
                read(0x10, 4),
                write(0x10, 4, 0xffff_f000),
                read(0x10, 4),
            ]),
            "[Probing { slot: 0 }, Value(fffff000), Probing { slot: 0 }, Value(fffff000), \
             Moved { slot: 0, address: fffff000 }, Value(fffff000)]",
        ),
        (
            "BAR at power-on",
            Question::PowerOn {
                function: Function { bars: vec![Bar { slot: 0, size: 16, address: 0x10 }], ..Function::default() },
            },
            "0x10 [10, 0, 0, 0]",
        ),
    ]
}
