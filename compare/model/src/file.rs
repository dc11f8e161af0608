//! The declaration file: refusals 1 to 17 with their places, and the bus that an accepted file starts.

use rules::{
    Aperture, Bar, Capability, Card, ConfigByte, Effect, FilePlace, FileRefusal, Function, Identity, Intx, Request,
    Wish,
};

use super::{
    bar::size_ok,
    capability::{body_ok, first_bad_effect, layout, placed},
    image::first_bad_byte,
    placement::{aperture_ok, place},
};

/// A function as far as it is read.
struct Declared {
    device: u8,
    function: Function,
    wishes: Vec<Wish>,
}

#[derive(Default)]
struct File {
    aperture: Option<Aperture>,
    functions: Vec<Declared>,
}

/// The aperture and the functions by device, their BARs placed.
pub fn declared(bytes: &[u8]) -> Result<(Aperture, Vec<Card>), FileRefusal> {
    let (aperture, mut functions) = read(bytes)?;
    functions.sort_by_key(|it| it.device);
    for it in &functions {
        whole(it)?;
    }
    let wishes: Vec<Wish> = functions.iter().flat_map(|it| it.wishes.clone()).collect();
    let addresses = place(aperture, &wishes).map_err(|it| at_index(it.number, it.device, usize::from(it.slot)))?;
    let mut addresses = addresses.into_iter();
    let cards = functions.into_iter().map(|it| card(it, &mut addresses)).collect();
    Ok((aperture, cards))
}

fn at_index(number: u8, device: u8, index: usize) -> FileRefusal {
    FileRefusal { number, place: FilePlace::Index { device, index } }
}

fn card(it: Declared, addresses: &mut impl Iterator<Item = u64>) -> Card {
    let bar = |(wish, address): (&Wish, u64)| Bar { slot: wish.slot, size: wish.size, address: address as u32 };
    let bars = it.wishes.iter().zip(addresses).map(bar).collect();
    Card { device: it.device, revision: 0, function: Function { bars, ..it.function } }
}

/// After the whole file: 12 and 13 by capability, then 9.
fn whole(it: &Declared) -> Result<(), FileRefusal> {
    let capabilities = &it.function.capabilities;
    layout(capabilities).map_err(|refusal| at_index(refusal.number, it.device, refusal.index))?;
    let placed = placed(capabilities).expect("capabilities that can be declared and fit");
    match first_bad_byte(&it.function, &placed) {
        Some(index) => Err(at_index(9, it.device, index)),
        None => Ok(()),
    }
}

/// Field by field; the first bad one decides.
fn read(bytes: &[u8]) -> Result<(Aperture, Vec<Declared>), FileRefusal> {
    let mut file = File::default();
    let mut at = 0;
    while at < bytes.len() {
        match file.field(&bytes[at..]) {
            Ok(length) => at += length,
            Err(number) => return Err(FileRefusal { number, place: FilePlace::Offset(at) }),
        }
    }
    match file.aperture {
        Some(aperture) => Ok((aperture, file.functions)),
        None => Err(FileRefusal { number: 3, place: FilePlace::Offset(bytes.len()) }),
    }
}

fn length_ok(tag: u8, length: usize) -> bool {
    match tag {
        1 => length == 16,
        2 => length == 13,
        3 => length == 2,
        4 => length == 18,
        5 => length == 3,
        6 => length % 2 == 1,
        7 => length == 5,
        _ => false,
    }
}

/// The other cases of 2: a byte outside its set, an automatic address not zero.
fn bytes_ok(tag: u8, body: &[u8]) -> bool {
    match tag {
        3 => (1..=4).contains(&body[0]),
        4 => body[1] == 1 || body[1] == 0 && number(&body[10..]) == 0,
        7 => (1..=3).contains(&body[4]),
        _ => true,
    }
}

/// Little-endian.
fn number(bytes: &[u8]) -> u64 {
    bytes.iter().rev().fold(0, |number, byte| number * 256 + u64::from(*byte))
}

fn word(bytes: &[u8], at: usize) -> u16 {
    number(&bytes[at..at + 2]) as u16
}

impl File {
    /// The length of the field at the start of these bytes, or its refusal, in the order within a field.
    fn field(&mut self, bytes: &[u8]) -> Result<usize, u8> {
        let Some((header, rest)) = bytes.split_at_checked(3) else { return Err(1) };
        let (tag, length) = (header[0], usize::from(word(header, 1)));
        if !length_ok(tag, length) {
            return Err(2);
        }
        if tag == 6 && !body_ok(length / 2) {
            return Err(10);
        }
        let Some(body) = rest.get(..length) else { return Err(1) };
        if !bytes_ok(tag, body) {
            return Err(2);
        }
        if !self.in_order(tag) {
            return Err(3);
        }
        if self.at_the_limit(tag) {
            return Err(4);
        }
        self.take(tag, body)?;
        Ok(3 + length)
    }

    fn latest(&self) -> Option<&Declared> {
        self.functions.last()
    }

    /// Tag 1 first and once, 3 to 6 in a function, 7 in a capability of the latest one, 3 once each.
    fn in_order(&self, tag: u8) -> bool {
        match tag {
            1 => self.aperture.is_none(),
            2 => self.aperture.is_some(),
            3 => self.latest().is_some_and(|it| it.function.intx.is_none()),
            7 => self.latest().is_some_and(|it| !it.function.capabilities.is_empty()),
            _ => self.latest().is_some(),
        }
    }

    fn at_the_limit(&self, tag: u8) -> bool {
        let count = |of: fn(&Declared) -> usize| self.latest().map_or(0, of);
        match tag {
            2 => self.functions.len() == 8,
            4 => count(|it| it.wishes.len()) == 6,
            5 => count(|it| it.function.config_bytes.len()) == 32,
            6 => count(|it| it.function.capabilities.len()) == 16,
            7 => count(|it| it.function.capabilities.iter().map(|it| it.effects.len()).sum()) == 32,
            _ => false,
        }
    }

    /// What the field declares, or 5, 6, 7, 8 or 11.
    fn take(&mut self, tag: u8, body: &[u8]) -> Result<(), u8> {
        match tag {
            1 => return self.take_aperture(body),
            2 => return self.take_function(body),
            _ => {}
        }
        let it = self.functions.last_mut().expect("in order");
        match tag {
            3 => it.function.intx = Some(Intx { pin: body[0], line: body[1] }),
            4 => return take_bar(it, body),
            5 => it.function.config_bytes.push(ConfigByte { offset: body[0], value: body[1], mask: body[2] }),
            6 => {
                let (bytes, mask) = body[1..].split_at(body.len() / 2);
                let (bytes, mask) = (bytes.to_vec(), mask.to_vec());
                it.function.capabilities.push(Capability { id: body[0], body: bytes, mask, effects: vec![] });
            }
            _ => return take_effect(it, body),
        }
        Ok(())
    }

    fn take_aperture(&mut self, body: &[u8]) -> Result<(), u8> {
        let aperture = Aperture { start: number(&body[..8]), end: number(&body[8..]) };
        if !aperture_ok(aperture) {
            return Err(8);
        }
        self.aperture = Some(aperture);
        Ok(())
    }

    fn take_function(&mut self, body: &[u8]) -> Result<(), u8> {
        let device = body[0];
        if device > 31 || self.functions.iter().any(|it| it.device == device) {
            return Err(5);
        }
        let identity = Identity {
            vendor: word(body, 1),
            device_id: word(body, 3),
            subsystem_vendor: word(body, 5),
            subsystem_id: word(body, 7),
            revision: body[9],
            base_class: body[10],
            subclass: body[11],
            interface: body[12],
        };
        if identity.vendor == 0xffff {
            return Err(6);
        }
        let function = Function { identity, ..Function::default() };
        self.functions.push(Declared { device, function, wishes: vec![] });
        Ok(())
    }
}

fn take_bar(it: &mut Declared, body: &[u8]) -> Result<(), u8> {
    let (slot, size, address) = (body[0], number(&body[2..10]), number(&body[10..]));
    if slot > 5 || it.wishes.iter().any(|wish| wish.slot == slot) {
        return Err(5);
    }
    if !size_ok(size) {
        return Err(7);
    }
    let request = if body[1] == 0 { Request::Auto } else { Request::Fixed(address) };
    it.wishes.push(Wish { device: it.device, slot, size, request });
    Ok(())
}

/// 11 beside the earlier effects of its capability.
fn take_effect(it: &mut Declared, body: &[u8]) -> Result<(), u8> {
    let capability = it.function.capabilities.last_mut().expect("in order");
    capability.effects.push(Effect { id: word(body, 0), offset: body[2], length: body[3], access: body[4] });
    match first_bad_effect(&capability.mask, &capability.effects) {
        Some(_) => Err(11),
        None => Ok(()),
    }
}
