//! Smaller questions for shrinking, damaged ones for testing; by the shape of the data.

use crate::{data::*, question::Question, random::Random};

pub trait Vary: Sized + Clone {
    /// Candidates that are simpler, the simplest first.
    fn smaller(&self) -> Vec<Self>;
    /// Changes one place.
    fn damage(&mut self, random: &mut Random);
}

macro_rules! vary_number {
    ($($t:ty),*) => {$(
        impl Vary for $t {
            fn smaller(&self) -> Vec<Self> {
                let n = *self;
                let mut out: Vec<Self> = [0, 1, n / 2].into_iter().filter(|m| *m < n).collect();
                // One set bit fewer, from the top; then one less.
                out.extend((0..Self::BITS).rev().map(|bit| n & !(1 << bit)).filter(|m| *m < n));
                out.extend(n.checked_sub(1));
                out
            }

            fn damage(&mut self, random: &mut Random) {
                let bit = 1 << random.below(u64::from(Self::BITS));
                *self = match random.below(5) {
                    0 => self.wrapping_add(1),
                    1 => self.wrapping_sub(1),
                    2 => random.u64() as Self,
                    _ => *self ^ bit,
                };
            }
        }
    )*};
}
vary_number!(u8, u16, u32, u64, usize);

impl Vary for bool {
    fn smaller(&self) -> Vec<Self> {
        if *self { vec![false] } else { vec![] }
    }

    fn damage(&mut self, _: &mut Random) {
        *self = !*self;
    }
}

impl<T: Vary> Vary for Vec<T> {
    fn smaller(&self) -> Vec<Self> {
        let mut out = Vec::new();
        // Halves first: most of a long list is seldom needed.
        if self.len() > 1 {
            out.push(self[..self.len() / 2].to_vec());
            out.push(self[self.len() / 2..].to_vec());
        }
        // A list so long has too many neighbours; it loses a part at a time, the last first.
        const LONG: usize = 600;
        if self.len() > LONG {
            let part = self.len() / 16;
            out.extend(
                (0..=16).rev().map(|at| [&self[..at * part], self.get((at + 1) * part..).unwrap_or(&[])].concat()),
            );
            out.retain(|less| less.len() < self.len());
            return out;
        }
        for at in 0..self.len() {
            let mut fewer = self.clone();
            fewer.remove(at);
            out.push(fewer);
        }
        for at in 0..self.len() {
            out.extend(self[at].smaller().into_iter().map(|less| {
                let mut changed = self.clone();
                changed[at] = less;
                changed
            }));
        }
        out
    }

    fn damage(&mut self, random: &mut Random) {
        if self.is_empty() {
            return;
        }
        let at = random.below(self.len() as u64) as usize;
        match random.below(8) {
            0 => drop(self.remove(at)),
            1 => self.insert(at, self[at].clone()),
            2 => self.swap(0, at),
            _ => self[at].damage(random),
        }
    }
}

impl<T: Vary> Vary for Option<T> {
    fn smaller(&self) -> Vec<Self> {
        let Some(it) = self else { return vec![] };
        std::iter::once(None).chain(it.smaller().into_iter().map(Some)).collect()
    }

    fn damage(&mut self, random: &mut Random) {
        match self {
            Some(it) if !random.once_in(4) => it.damage(random),
            _ => *self = None,
        }
    }
}

impl Vary for Request {
    fn smaller(&self) -> Vec<Self> {
        match self {
            Self::Auto => vec![],
            Self::Fixed(address) => {
                std::iter::once(Self::Auto).chain(address.smaller().into_iter().map(Self::Fixed)).collect()
            }
        }
    }

    fn damage(&mut self, random: &mut Random) {
        match self {
            Self::Fixed(address) if !random.once_in(4) => address.damage(random),
            Self::Fixed(_) => *self = Self::Auto,
            Self::Auto => *self = Self::Fixed(random.below(1 << 32)),
        }
    }
}

impl Vary for Capability {
    fn smaller(&self) -> Vec<Self> {
        let mut out = Vec::new();
        // A byte leaves the body and the mask together.
        for at in (0..self.body.len()).rev() {
            let mut fewer = self.clone();
            fewer.body.remove(at);
            fewer.mask.remove(at);
            out.push(fewer);
        }
        out.extend(self.id.smaller().into_iter().map(|id| Self { id, ..self.clone() }));
        out.extend(self.effects.smaller().into_iter().map(|effects| Self { effects, ..self.clone() }));
        let same = |bytes: &Vec<u8>| bytes.len() == self.body.len();
        out.extend(self.body.smaller().into_iter().filter(same).map(|body| Self { body, ..self.clone() }));
        out.extend(self.mask.smaller().into_iter().filter(same).map(|mask| Self { mask, ..self.clone() }));
        out
    }

    fn damage(&mut self, random: &mut Random) {
        match random.below(6) {
            0 => self.id.damage(random),
            1 | 2 => self.effects.damage(random),
            3 => {
                self.body.push(random.byte());
                self.mask.push(random.edgy_byte());
            }
            4 => {
                self.body.pop();
                self.mask.pop();
            }
            _ if self.body.is_empty() => {}
            _ => {
                let at = random.below(self.body.len() as u64) as usize;
                self.body[at].damage(random);
                self.mask[at].damage(random);
            }
        }
    }
}

/// A struct varies in one field at a time.
macro_rules! vary_struct {
    ($t:ident { $($field:ident),* }) => {
        impl Vary for $t {
            fn smaller(&self) -> Vec<Self> {
                let mut out = Vec::new();
                $(out.extend(self.$field.smaller().into_iter().map(|less| {
                    let mut changed = self.clone();
                    changed.$field = less;
                    changed
                }));)*
                out
            }

            fn damage(&mut self, random: &mut Random) {
                let fields: &[fn(&mut Self, &mut Random)] = &[$(|it, random| it.$field.damage(random)),*];
                let one = random.pick(fields);
                one(self, random);
            }
        }
    };
}
vary_struct!(Effect { id, offset, length, access });
vary_struct!(ConfigByte { offset, value, mask });
vary_struct!(Intx { pin, line });
vary_struct!(Bar { slot, size, address });
vary_struct!(Now { slot, address, probing });
vary_struct!(BarNow { size, address, probing });
vary_struct!(Wish { device, slot, size, request });
vary_struct!(Aperture { start, end });
vary_struct!(Identity { vendor, device_id, subsystem_vendor, subsystem_id, revision, base_class, subclass, interface });
vary_struct!(Function { capabilities, config_bytes, bars, intx, identity });
vary_struct!(Card { function, device, revision });

/// An enum keeps its variant and varies in one field at a time.
macro_rules! vary_enum {
    ($t:ident { $($variant:ident { $($field:ident),* })* }) => {
        impl Vary for $t {
            fn smaller(&self) -> Vec<Self> {
                let mut out = Vec::new();
                match self {
                    $(Self::$variant { $($field),* } => {
                        $(out.extend($field.smaller().into_iter().map(|less| {
                            let mut changed = self.clone();
                            let Self::$variant { $field, .. } = &mut changed else { unreachable!() };
                            *$field = less;
                            changed
                        }));)*
                    })*
                }
                out
            }

            fn damage(&mut self, random: &mut Random) {
                match self {
                    $(Self::$variant { $($field),* } => {
                        // The lot falls on one field.
                        let count = 0 $(+ { let _ = &$field; 1 })*;
                        #[allow(unused_mut)]
                        let mut lot = random.below(u64::max(count, 1));
                        $(if lot == 0 { $field.damage(random); }
                        lot = lot.wrapping_sub(1);)*
                        let _ = lot;
                    })*
                }
            }
        }
    };
}
vary_enum!(Op {
    Read { offset, width }
    Write { offset, width, value, accept }
    Reset {}
});
vary_enum!(BusOp {
    Read { device, offset, width }
    Write { device, offset, width, value }
    Lookup { address, width }
    Reset {}
});
vary_enum!(Question {
    Check { offset, width }
    SizeOk { size }
    SizeMask { size }
    Shown { bar }
    BarWrite { bar, lane, width, value }
    BodyOk { length }
    FirstBadEffect { effects, mask }
    Layout { capabilities }
    EffectFor { capabilities, offset, width, write }
    Modes { capabilities }
    View { capabilities, image, index }
    Place { wishes, aperture }
    FirstBadByte { function }
    PowerOn { function }
    Function { ops, now, function, revision }
    Bus { ops, cards, aperture }
    File { bytes }
});
