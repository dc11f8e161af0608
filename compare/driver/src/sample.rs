//! Questions and the Rust's answers as little-endian 64-bit numbers in a file, for the program that replays them.
//!
//! First a header: the magic number, how many records follow, the seed. Then the records, each with its kind before it.

use rules::{BarNow, BarWrite, PlaceRefusal, Question, Random, Request, Rules, Wish};

use crate::{
    inputs::{Draw, RULES},
    plan::seed_of,
};

/// "vgreplay" in bytes.
const MAGIC: u64 = u64::from_le_bytes(*b"vgreplay");

/// All together stay below 450,000 bytes.
const ACCESSES: usize = 1600;
const BARS: usize = 3000;
/// Of each of the five ways that placement can end.
const PLACEMENTS: usize = 17;

type Record = Vec<u64>;

/// The standard input of the program `replay`.
pub fn file(rust: &mut dyn Rules, seed: u64) -> Vec<u8> {
    let kinds = [accesses(rust, seed), bars(rust, seed), placements(rust, seed)];
    let count: usize = kinds.iter().map(Vec::len).sum();
    let mut numbers = vec![MAGIC, count as u64, seed];
    for (kind, records) in kinds.iter().enumerate() {
        for record in records {
            numbers.push(kind as u64);
            numbers.extend(record);
        }
    }
    numbers.iter().flat_map(|number| number.to_le_bytes()).collect()
}

/// Random questions of a rule, without end.
fn questions(seed: u64, name: &str) -> impl Iterator<Item = Question> {
    let rule = RULES.iter().find(|rule| rule.name == name).expect("a rule of that name");
    let Draw::One(input) = rule.random else { panic!("a rule with single inputs") };
    let mut random = Random::new(seed_of(seed, name));
    std::iter::repeat_with(move || input(&mut random))
}

/// Offset, width, 1 if it passes: all around the config space, then anywhere in 16 bits.
fn accesses(rust: &mut dyn Rules, seed: u64) -> Vec<Record> {
    const WIDTHS: [u32; 4] = [1, 2, 4, 8];
    let mut random = Random::new(seed_of(seed, "check"));
    let near = (0..0x110).flat_map(|offset| WIDTHS.map(|width| (offset, width)));
    let far = std::iter::repeat_with(|| (random.below(0x1_0000) as u32, random.pick(&WIDTHS)));
    let record =
        |(offset, width): (u32, u32)| Some(vec![offset.into(), width.into(), rust.check(offset, width)?.into()]);
    near.chain(far).filter_map(record).take(ACCESSES).collect()
}

/// Size, address, probing, lane, width, value; what the register shows; 0 probe or 1 relocate, and the candidate.
fn bars(rust: &mut dyn Rules, seed: u64) -> Vec<Record> {
    let record = |question| {
        let Question::BarWrite { bar, lane, width, value } = question else { return None };
        let (kind, candidate) = match rust.bar_write(bar, lane, width, value)? {
            BarWrite::Probe => (0, 0),
            BarWrite::Relocate(candidate) => (1, candidate),
        };
        let BarNow { size, address, probing } = bar;
        let shown = rust.shown(bar)?.into();
        let asked = [size, address.into(), probing.into(), lane.into(), width.into(), value];
        Some(asked.into_iter().chain([shown, kind, candidate.into()]).collect())
    };
    questions(seed, "bar_write").filter_map(record).take(BARS).collect()
}

/// Start and end; 48 times 0 none, 1 automatic or 2 fixed, size, address; 8 devices, ascending;
/// then the refusal or 0, its device and slot, and 48 addresses.
fn placements(rust: &mut dyn Rules, seed: u64) -> Vec<Record> {
    let mut left = [PLACEMENTS; 5];
    let mut out = Vec::new();
    for question in questions(seed, "place") {
        let Question::Place { aperture, wishes } = question else { continue };
        let Some(answer) = rust.place(aperture, &wishes) else { continue };
        let number = answer.as_ref().map_or_else(|refusal| refusal.number, |_| 0);
        let way = usize::from(number.saturating_sub(13));
        if left[way] == 0 || wishes.is_empty() {
            continue;
        }
        let Some(table) = table(&wishes, &answer) else { continue };
        left[way] -= 1;
        out.push([aperture.start, aperture.end].into_iter().chain(table).collect());
        if left == [0; 5] {
            break;
        }
    }
    out
}

/// None if there are more than eight devices.
fn table(wishes: &[Wish], answer: &Result<Vec<u64>, PlaceRefusal>) -> Option<Record> {
    let mut devices: Vec<u8> = wishes.iter().map(|wish| wish.device).collect();
    devices.sort_unstable();
    devices.dedup();
    let (mut places, mut addresses) = ([[0; 3]; 48], [0; 48]);
    for (at, wish) in wishes.iter().enumerate() {
        let key = devices.binary_search(&wish.device).ok()? * 6 + usize::from(wish.slot);
        *places.get_mut(key)? = match wish.request {
            Request::Auto => [1, wish.size, 0],
            Request::Fixed(address) => [2, wish.size, address],
        };
        addresses[key] = answer.as_ref().map_or(0, |all| all[at]);
    }
    devices.resize(8, 0);
    let refusal = answer.as_ref().map_or_else(|it| [it.number, it.device, it.slot], |_| [0; 3]);
    let tail = devices.into_iter().chain(refusal).map(u64::from);
    Some(places.into_iter().flatten().chain(tail).chain(addresses).collect())
}
