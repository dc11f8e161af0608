"""Declarations, their files, and what each one lets a guest find (document 01)."""
import struct
from dataclasses import dataclass, field

WINDOW = (0xF0000000, 0x100000000)                # what User Mode Linux gives its devices
READ, WRITE, BOTH = 1, 2, 3


@dataclass
class Bar:
    slot: int
    size: int
    address: int = None                           # None: automatic


@dataclass
class Effect:
    id: int
    offset: int
    length: int
    access: int


@dataclass
class Capability:
    id: int
    body: bytes
    mask: bytes = None                            # None: read-only
    effects: list = field(default_factory=list)

    def masks(self):
        return self.mask or bytes(len(self.body))


@dataclass
class Function:
    device: int
    ids: tuple = (0x1AF4, 0x1110, 0x1AF4, 0x1100)  # vendor, device id, subsystem vendor, subsystem id
    revision: int = 1
    kind: tuple = (0xFF, 0, 0)                    # base class, subclass, programming interface
    intx: tuple = None                            # pin, line
    bars: list = field(default_factory=list)
    bytes: list = field(default_factory=list)     # (offset, value, mask)
    capabilities: list = field(default_factory=list)

    def places(self):
        """(offset, capability): each at the next multiple of 4 after the one before, from 0x40 on."""
        at, placed = 0x40, []
        for capability in self.capabilities:
            placed.append((at, capability))
            at = (at + 2 + len(capability.body) + 3) // 4 * 4
        return placed

    def declared(self):
        """(name, offset, bytes) of what config space shows at power-on; the later of two at one offset wins."""
        vendor, device, subsystem_vendor, subsystem = self.ids
        base, sub, interface = self.kind
        pin, line = self.intx or (0, 0)
        yield "ids", 0x00, struct.pack("<HH", vendor, device)
        yield "command", 0x04, bytes(2)
        yield "revision and class", 0x08, bytes((self.revision, interface, sub, base))
        yield "header type", 0x0E, bytes(1)
        yield "subsystem", 0x2C, struct.pack("<HH", subsystem_vendor, subsystem)
        yield "line and pin", 0x3C, bytes((line, pin))
        for offset, value, _mask in self.bytes:
            yield "config byte", offset, bytes((value,))
        placed = self.places()
        for (at, capability), after in zip(placed, [at for at, _ in placed[1:]] + [0]):
            yield "capability", at, bytes((capability.id, after)) + capability.body
        yield "status", 0x06, struct.pack("<H", 0x10 if placed else 0)
        yield "capability pointer", 0x34, bytes((placed[0][0] if placed else 0,))

    def effect_bytes(self):
        """offset -> the effect that owns the byte."""
        return {at + effect.offset + k: effect for at, capability in self.places() for effect in capability.effects
                for k in range(effect.length)}


@dataclass
class Declaration:
    functions: list
    aperture: tuple = WINDOW

    def file(self):
        def tag(number, body):
            return struct.pack("<BH", number, len(body)) + body

        out = tag(1, struct.pack("<QQ", *self.aperture))
        for f in self.functions:
            base, sub, interface = f.kind
            out += tag(2, struct.pack("<BHHHHBBBB", f.device, *f.ids, f.revision, base, sub, interface))
            if f.intx:
                out += tag(3, bytes(f.intx))
            for bar in f.bars:
                fixed = bar.address is not None
                out += tag(4, struct.pack("<BBQQ", bar.slot, fixed, bar.size, bar.address if fixed else 0))
            for byte in f.bytes:
                out += tag(5, bytes(byte))
            for capability in f.capabilities:
                out += tag(6, bytes((capability.id,)) + capability.body + capability.masks())
                for effect in capability.effects:
                    out += tag(7, struct.pack("<HBBB", effect.id, effect.offset, effect.length, effect.access))
        return out
