//! The cases P1 to P10 and the run of document 01, put to both sides.

use rules::*;

/// Name, question, and what document 01 says.
pub fn all() -> Vec<(&'static str, Question, Reply)> {
    let mask = |size| Question::SizeMask { size };
    let write = |bar, lane, width, value| Question::BarWrite { bar, lane, width, value };
    let bar = |address, probing| BarNow { size: 0x1000, address, probing };
    let probe = || Reply::BarWrite(BarWrite::Probe);
    let to = |address| Reply::BarWrite(BarWrite::Relocate(address));
    let check = |offset, width| Question::Check { offset, width };
    vec![
        ("P1", mask(16), Reply::Dword(0xffff_fff0)),
        ("P1", mask(0x1000), Reply::Dword(0xffff_f000)),
        ("P1", mask(1 << 32), Reply::Dword(0)),
        ("P2", write(bar(0, false), 0, 4, 0xffff_fff0), to(0xffff_fff0)),
        ("P2", write(bar(0, false), 0, 4, 0xffff_ffff), probe()),
        ("P3", write(bar(0xffff_ff00, false), 0, 1, 0xff), probe()),
        ("P4", write(bar(0x8000_1000, true), 2, 2, 0x9000), to(0x9000_1000)),
        ("P5", word_at_command(), Reply::Story(command_0406())),
        ("P6", bodies(&[4, 0, 178]), Reply::Layout(Ok(vec![0x40, 0x48, 0x4c]))),
        ("P6", bodies(&[4, 0, 179]), Reply::Layout(Err(LayoutRefusal { number: 13, index: 2 }))),
        ("P7", bodies(&[190]), Reply::Layout(Ok(vec![0x40]))),
        ("P7", bodies(&[191]), Reply::Layout(Err(LayoutRefusal { number: 13, index: 0 }))),
        ("P7", Question::BodyOk { length: 254 }, Reply::Yes(false)),
        ("P8", at(0x43, 1), Reply::Touch(inside())),
        ("P8", at(0x42, 2), Reply::Touch(Touch::Refused)),
        ("P8", at(0x44, 4), Reply::Touch(Touch::Refused)),
        ("P9", no_room(), Reply::Place(Err(PlaceRefusal { number: 17, device: 0, slot: 0 }))),
        ("P10", check(0xfc, 4), Reply::Yes(true)),
        ("P10", check(0x100, 1), Reply::Yes(false)),
        ("P10", check(0, 8), Reply::Yes(false)),
        ("P10", check(1, 2), Reply::Yes(false)),
        ("run", three_bars(), Reply::Place(Ok(vec![0x8000_1000, 0x8000_0000, 0x8000_4000]))),
    ]
}

fn capability(length: usize, effects: Vec<Effect>) -> Capability {
    Capability { id: 9, body: vec![0; length], mask: vec![0; length], effects }
}

fn bodies(lengths: &[usize]) -> Question {
    Question::Layout { capabilities: lengths.iter().map(|length| capability(*length, vec![])).collect() }
}

fn word_at_command() -> Question {
    let write = Op::Write { offset: 4, width: 2, value: 0xffff, accept: false };
    Question::Function {
        function: Function::default(),
        now: vec![],
        revision: 0,
        ops: vec![write, Op::Read { offset: 4, width: 2 }],
    }
}

fn command_0406() -> Story {
    let mut shown = [0; 256];
    shown[4..6].copy_from_slice(&[0x06, 0x04]);
    let end = End { shown, addresses: [None; 6], revision: 1, command: [true; 3] };
    Story { answers: vec![Answer::Done, Answer::Value(0x0406)], ends: vec![end], after: None }
}

/// P8's effect: offset 3, length 2 in a capability at 0x40.
fn at(offset: u16, width: u8) -> Question {
    let effect = Effect { id: 1, offset: 3, length: 2, access: 3 };
    Question::EffectFor { capabilities: vec![capability(6, vec![effect])], offset, width, write: false }
}

fn inside() -> Touch {
    Touch::Inside(Touched { capability: 9, effect: 1, region: (3, 2), offset: 3, region_offset: 0, body: vec![0; 6] })
}

fn no_room() -> Question {
    let aperture = Aperture { start: 0x8000_0010, end: 0x8000_1010 };
    Question::Place { aperture, wishes: vec![Wish { device: 0, slot: 0, size: 0x1000, request: Request::Auto }] }
}

fn three_bars() -> Question {
    let wish = |device, slot, size, request| Wish { device, slot, size, request };
    let wishes = vec![
        wish(3, 0, 0x1000, Request::Auto),
        wish(3, 1, 0x1000, Request::Fixed(0x8000_0000)),
        wish(5, 0, 0x4000, Request::Auto),
    ];
    Question::Place { aperture: Aperture { start: 0x8000_0000, end: 0x8001_0000 }, wishes }
}
