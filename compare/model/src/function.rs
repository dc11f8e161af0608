//! One function's state: reads, writes, reset, revision.

use rules::{Answer, BarNow, BarWrite, End, Function, Image, Kept, KeptBar, Now, Op, Touch};

use super::{
    access::{check, read, store},
    bar,
    capability::{Owners, Placed, owners, touch},
    image,
};

pub struct State {
    power_on: Image,
    pub live: [u8; 256],
    placed: Vec<Placed>,
    owners: Owners,
    pub planned: [Option<BarNow>; 6],
    pub bars: [Option<BarNow>; 6],
    revision: u64,
}

impl State {
    pub fn new(function: &Function, revision: u64) -> Option<Self> {
        let placed = image::declarable(function)?;
        let power_on = image::power_on(function, &placed);
        let mut bars = [None; 6];
        for bar in &function.bars {
            bars[usize::from(bar.slot)] = Some(BarNow { size: bar.size, address: bar.address, probing: false });
        }
        let (live, owners) = (power_on.bytes, owners(&placed));
        Some(Self { power_on, live, placed, owners, planned: bars, bars, revision })
    }

    /// Puts a BAR where the steps begin; none if there is no such BAR.
    pub fn begin(&mut self, now: Now) -> Option<()> {
        let bar = self.bars.get_mut(usize::from(now.slot))?.as_mut()?;
        let Now { address, probing, .. } = now;
        *bar = BarNow { address, probing, ..*bar };
        u64::from(address).is_multiple_of(bar.size).then_some(())
    }

    /// A step whose relocations are accepted as the question says.
    pub fn step(&mut self, op: Op) -> Answer {
        match op {
            Op::Read { offset, width } => self.read(offset, width),
            Op::Write { offset, width, value, accept } => self.write(offset, width, value, |_, _| accept),
            Op::Reset if self.reset() => Answer::Done,
            Op::Reset => Answer::ResetAtLargest { device: 0 },
        }
    }

    /// 18 or 19, or the effect that answers.
    fn refused_or_inside(&self, offset: u16, width: u8, write: bool) -> Option<Answer> {
        if !check(offset.into(), width.into()) {
            return Some(Answer::Refused(18));
        }
        match touch(&self.placed, &self.owners, &self.live, offset, width, write) {
            Touch::Refused => Some(Answer::Refused(19)),
            Touch::Inside(touched) => Some(Answer::Inside(touched)),
            Touch::Untouched => None,
        }
    }

    /// The declared BAR whose register the access is in, and its lane.
    fn register(&self, offset: u16) -> Option<(usize, BarNow, u8)> {
        let slot = usize::from(offset.checked_sub(0x10)? / 4);
        let bar = *self.bars.get(slot)?;
        Some((slot, bar?, (offset % 4) as u8))
    }

    pub fn read(&self, offset: u16, width: u8) -> Answer {
        if let Some(answer) = self.refused_or_inside(offset, width, false) {
            return answer;
        }
        Answer::Value(match self.register(offset) {
            Some((_, bar, lane)) => read(&bar::shown(bar).to_le_bytes(), lane.into(), width),
            None => read(&self.live, offset, width),
        })
    }

    /// `accept` is asked with the BAR and the candidate.
    pub fn write(&mut self, offset: u16, width: u8, value: u64, accept: impl Fn(BarNow, u32) -> bool) -> Answer {
        if let Some(answer) = self.refused_or_inside(offset, width, true) {
            return answer;
        }
        let Some((slot, bar, lane)) = self.register(offset) else {
            return self.store(offset, width, value);
        };
        let number = slot as u8;
        let (now, answer) = match bar::write(bar, lane, width, value) {
            BarWrite::Probe => (BarNow { probing: true, ..bar }, Answer::Probing { slot: number }),
            BarWrite::Relocate(address) if accept(bar, address) => {
                (BarNow { address, probing: false, ..bar }, Answer::Moved { slot: number, address })
            }
            BarWrite::Relocate(candidate) => {
                (BarNow { probing: false, ..bar }, Answer::Kept { slot: number, candidate })
            }
        };
        self.bars[slot] = Some(now);
        answer
    }

    fn store(&mut self, offset: u16, width: u8, value: u64) -> Answer {
        let mut live = self.live;
        store(&mut live, &self.power_on.masks, offset, width, value);
        if command(&live) != command(&self.live) {
            // 20 on a write changes nothing.
            let Some(revision) = self.revision.checked_add(1) else { return Answer::Refused(20) };
            self.revision = revision;
        }
        self.live = live;
        Answer::Done
    }

    /// False if the revision is at its largest and stays; everything else is done.
    pub fn reset(&mut self) -> bool {
        self.live = self.power_on.bytes;
        self.bars = self.planned;
        let next = self.revision.checked_add(1);
        self.revision = next.unwrap_or(self.revision);
        next.is_some()
    }

    pub fn kept(&self, device: u8) -> Kept {
        let bar = |slot: usize| {
            let (planned, bar) = (self.planned[slot]?, self.bars[slot]?);
            let (planned, address) = (planned.address.into(), bar.address.into());
            Some(KeptBar { size: bar.size, planned, address, probing: bar.probing })
        };
        let effects =
            self.placed.iter().enumerate().flat_map(|(at, (it, _))| it.effects.iter().map(move |it| (at as u8, *it)));
        Kept {
            device,
            live: self.live,
            power_on: self.power_on.bytes,
            masks: self.power_on.masks,
            bars: std::array::from_fn(bar),
            capabilities: self.placed.iter().map(|(it, at)| (it.id, *at as u16, it.body.len() as u8)).collect(),
            effects: effects.collect(),
            revision: self.revision,
        }
    }

    pub fn end(&self) -> End {
        let shown = |offset: usize| match self.read(offset as u16, 1) {
            Answer::Value(byte) => byte as u8,
            _ => 0,
        };
        End {
            shown: std::array::from_fn(shown),
            addresses: self.bars.map(|bar| bar.map(|bar| bar.address.into())),
            revision: self.revision,
            command: command(&self.live),
        }
    }
}

/// Bits 1, 2 and 10 of the command word.
pub fn command(live: &[u8; 256]) -> [bool; 3] {
    [1, 2, 10].map(|bit| read(live, 0x04, 2) >> bit & 1 == 1)
}
