//! Times the proved library beside axdevice, call by call in turn. Nothing here is a test: a time depends on the machine.

mod file;
mod setting;
mod stack;

use std::{hint::black_box, time::Instant};

use oracle::{
    AccessWidth::{Byte, Dword, Word},
    Oracle,
    timed::{At, Root},
};
use ours_place::place;
use rules::Rules;
use setting::{APERTURE, DEVICE, EFFECT, FREE, MISALIGNED, SIZE, STORED, address, cards, wishes};
use voussglen::{
    Bus,
    raw::{self, LookupAsk, ReadAsk, Snapshot, WriteAsk},
};

mod ours_place;

/// Turns of a row, odd for the median; in each, first ours and then the Rust, so many calls as take about this long.
const TURNS: usize = 501;
const TURN_NANOSECONDS: u128 = 200_000;

/// An answer that nobody looks at, and that is made all the same.
fn seen<T>(answer: T) {
    black_box(answer);
}

/// Nanoseconds a call, in order.
struct Times(Vec<f64>);

impl Times {
    fn median(&self) -> f64 {
        self.0[self.0.len() / 2]
    }

    /// What other work on the machine disturbs least.
    fn least(&self) -> f64 {
        self.0[0]
    }

    /// The median, the least, and the middle half.
    fn told(&self) -> String {
        let quarter = |n| self.0[n * self.0.len() / 4];
        format!("{:>9.0} {:>9.0} {:>9.0} to {:<9.0}", self.median(), self.least(), quarter(1), quarter(3))
    }
}

/// How many calls fill a turn.
fn calls(call: &mut dyn FnMut(u64)) -> u64 {
    let start = Instant::now();
    (0..8).for_each(&mut *call);
    (TURN_NANOSECONDS * 8 / start.elapsed().as_nanos().max(1)).clamp(4, 4000) as u64 / 2 * 2
}

fn turn(count: u64, call: &mut dyn FnMut(u64)) -> f64 {
    let start = Instant::now();
    (0..count).for_each(&mut *call);
    start.elapsed().as_nanos() as f64 / count as f64
}

/// Each call gets its number, so that it can go to and fro.
fn row(name: &str, mut ours: impl FnMut(u64), mut rust: impl FnMut(u64)) {
    let (count, rust_count) = (calls(&mut ours), calls(&mut rust));
    let pairs = (0..TURNS).map(|_| (turn(count, &mut ours), turn(rust_count, &mut rust)));
    let (mut ours, mut rust): (Vec<f64>, Vec<f64>) = pairs.unzip();
    ours.sort_by(f64::total_cmp);
    rust.sort_by(f64::total_cmp);
    let (ours, rust) = (Times(ours), Times(rust));
    println!(
        "{name:26}{}{}{:>8.1}{:>8.1}",
        ours.told(),
        rust.told(),
        ours.median() / rust.median(),
        ours.least() / rust.least()
    );
}

/// A library's bus beside the Rust's, memory decoding on in all functions.
struct Pair {
    bus: Bus,
    root: Root,
}

impl Pair {
    fn new() -> Self {
        let file = setting::file();
        let mut pair = Self { bus: Bus::from_declaration(&file).expect("a file"), root: Root::new(APERTURE, &cards()) };
        for card in cards() {
            pair.bus.write(card.device.into(), 4, 2, 2).expect("a write");
            pair.root.write(At::new(card.device, 4, Word), 2);
        }
        pair
    }

    fn read(&self, name: &str, offset: u16, width: usize) {
        let at = At::new(DEVICE, offset, if width == 1 { Byte } else { Dword });
        row(name, |_| seen(self.bus.read(DEVICE.into(), offset.into(), width)), |_| seen(self.root.read(at)));
    }

    /// One value, then the other.
    fn write(&mut self, name: &str, offset: u16, width: usize, values: [u64; 2]) {
        let at = At::new(DEVICE, offset, [Byte, Byte, Word, Word, Dword][width]);
        let (bus, root) = (&mut self.bus, &self.root);
        row(
            name,
            |n| seen(bus.write(DEVICE.into(), offset.into(), width, values[n as usize % 2])),
            |n| seen(root.write(at, values[n as usize % 2])),
        );
    }

    fn lookup(&self, name: &str, address: u64) {
        row(
            name,
            |_| seen(self.bus.lookup(black_box(address), 4)),
            |_| seen(self.root.lookup(black_box(address), Dword)),
        );
    }
}

fn main() {
    println!("nanoseconds a call: median, least and middle half of {TURNS} turns, ours and the Rust in turn");
    println!("ratios: of the medians, and of the least, which other work on the machine disturbs less");
    println!(
        "{:26}{:>9} {:>9} {:>22}{:>9} {:>9} {:>22}{:>8}{:>8}",
        "", "ours", "least", "middle half", "Rust", "least", "middle half", "ratio", "least"
    );
    let mut pair = Pair::new();
    pair.read("read", 0, 4);
    pair.read("read of an effect", EFFECT, 1);
    pair.write("write of a stored byte", STORED, 1, [0x5a, 0xa5]);
    pair.write("write of an effect", EFFECT, 1, [0, 0]);
    pair.write("write of a BAR, kept", 0x10, 4, [MISALIGNED; 2]);
    pair.write("write of a BAR, moved", 0x10, 4, [FREE, FREE + SIZE]);
    pair.write("write of the command", 4, 2, [0, 2]);
    pair = Pair::new();
    pair.lookup("lookup, first", address(0, 0));
    pair.lookup("lookup, last", address(7, 5));
    pair.lookup("lookup, miss", FREE);
    let Pair { bus, root } = &mut pair;
    row("reset of 8 functions", |_| seen(bus.reset()), |_| seen(root.reset()));
    let (wishes, numbers) = (wishes(), ours_place::numbers());
    row("placing 48 BARs", |_| seen(place(black_box(numbers))), |_| seen(Oracle.place(APERTURE, black_box(&wishes))));
    let (file, cards) = (setting::file(), cards());
    row("start", |_| seen(Bus::from_declaration(black_box(&file))), |_| seen(Root::new(APERTURE, black_box(&cards))));
    let worst = file::worst();
    println!("start: a file of {} bytes; the Rust from declarations in memory", file.len());
    let mut times: Vec<f64> =
        (0..TURNS).map(|_| turn(1, &mut |_| seen(Bus::from_declaration(black_box(&worst))))).collect();
    times.sort_by(f64::total_cmp);
    println!("file of {} bytes at every limit, refused at its end: {}", worst.len(), Times(times).told());
    stacks();
}

/// The largest of some calls, each of which goes another way.
fn stacks() {
    let (file, worst) = (setting::file(), file::worst());
    let mut bus = *Bus::from_declaration(&file).expect("a file").raw();
    let mut body = Snapshot { length: 0, bytes: [0; raw::LONGEST_BODY] };
    let device = usize::from(DEVICE);
    let reads = [(0, 4), (EFFECT.into(), 1), (0x100, 1), (0x10, 4)];
    let writes = [
        (STORED.into(), 1, 1),
        (4, 2, 2),
        (4, 2, 0),
        (0x10, 4, 0xffff_ffff),
        (0x10, 4, FREE),
        (0x10, 4, MISALIGNED),
        (EFFECT.into(), 1, 0),
    ];
    println!("bytes of stack");
    let told = |name: &str, depths: &[usize]| println!("{name:26}{:>9}", depths.iter().max().expect("some"));
    // SAFETY: of every call below: the bus and the body are ours alone, and a file is a slice.
    told(
        "vg_start",
        &[&file, &worst]
            .map(|file| stack::depth(&mut || seen(unsafe { raw::vg_start(&mut bus, file.as_ptr(), file.len()) }))),
    );
    bus = *Bus::from_declaration(&file).expect("a file").raw();
    told(
        "vg_read",
        &reads.map(|(offset, width)| {
            stack::depth(&mut || seen(unsafe { raw::vg_read(&bus, &mut body, ReadAsk { device, offset, width }) }))
        }),
    );
    told(
        "vg_write",
        &writes.map(|(offset, width, value)| {
            stack::depth(&mut || {
                seen(unsafe { raw::vg_write(&mut bus, &mut body, WriteAsk { device, offset, width, value }) })
            })
        }),
    );
    told(
        "vg_lookup",
        &[address(0, 0), address(7, 5), FREE].map(|address| {
            stack::depth(&mut || seen(unsafe { raw::vg_lookup(&bus, LookupAsk { address, width: 4 }) }))
        }),
    );
    told(
        "vg_enumerate",
        &[device, 9].map(|device| stack::depth(&mut || seen(unsafe { raw::vg_enumerate(&mut bus, device) }))),
    );
    told("vg_reset", &[stack::depth(&mut || seen(unsafe { raw::vg_reset(&mut bus) }))]);
}
