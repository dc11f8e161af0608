//! A file of 65,536 bytes with as many fields as a reader takes: every limit is reached, and bodies fill the rest.

const LENGTH: usize = 65_536;
const FUNCTIONS: usize = 8;
const CAPABILITIES: usize = 16;
const EFFECTS: usize = 2;
const CONFIG_BYTES: usize = 32;

fn field(out: &mut Vec<u8>, tag: u8, body: &[u8]) {
    out.push(tag);
    out.extend((body.len() as u16).to_le_bytes());
    out.extend(body);
}

/// Capabilities with bodies of `body` bytes, all read-only, two effects each.
fn file(body: usize) -> Vec<u8> {
    let mut out = Vec::new();
    let mut aperture = 0x8000_0000_u64.to_le_bytes().to_vec();
    aperture.extend(0x1_0000_0000_u64.to_le_bytes());
    field(&mut out, 1, &aperture);
    for device in (0..FUNCTIONS as u8).rev() {
        field(&mut out, 2, &[device, 0xf4, 0x1a, 1, 0x10, 0xf4, 0x1a, 2, 0, 1, 1, 0, 0]);
        field(&mut out, 3, &[1, 9]);
        for slot in 0..6 {
            let mut bar = vec![slot, 0];
            bar.extend(0x1000_u64.to_le_bytes());
            bar.extend([0; 8]);
            field(&mut out, 4, &bar);
        }
        for _ in 0..CONFIG_BYTES {
            field(&mut out, 5, &[0x3c, 9, 0xff]);
        }
        for id in 0..CAPABILITIES {
            let mut capability = vec![id as u8];
            capability.resize(1 + 2 * body, 0);
            field(&mut out, 6, &capability);
            for effect in 0..EFFECTS {
                let half = (body / 2) as u8;
                field(&mut out, 7, &[(id * EFFECTS + effect) as u8, 0, 2 + effect as u8 * half, half, 3]);
            }
        }
    }
    out
}

/// The longest that stays within the length, filled up by zeros, which are no field: so all others are read before it is refused.
pub fn worst() -> Vec<u8> {
    let mut out = (1..=253).map(file).take_while(|file| file.len() <= LENGTH).last().expect("a file");
    out.resize(LENGTH, 0);
    out
}
