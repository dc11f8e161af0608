"""The cases: named declarations, random ones from a seed, and the differences that each may show."""
import random
from dataclasses import dataclass, field

from declaration import BOTH, READ, WINDOW, WRITE, Bar, Capability, Declaration, Effect, Function

KIB, MIB = 1 << 10, 1 << 20
START, END = WINDOW
# name, what the guest does, whether the bus is reset before (None: it starts)
BOOTS = (("power-on", "full", None), ("after a reset", "quick", True), ("warm, no reset", "quick", False))
REGISTERS = 0                                     # the BAR of which the driver tries the first dword only

# The listed differences; docs/DIFFERENCES.md has each with its smallest input.
KEPT = "kept"                                     # the bus kept an address, Linux goes on with another
RESET = "reset unseen"                            # a reset that Linux does not know of brought a moved BAR back
EFFECT = "effect"                                 # a dword that is not inside an effect which it touches reads all ones
CLASS = "class"                                   # Linux reads more into a class than its three bytes
WHOLE = "4 GiB"                                   # a BAR of 4 GiB shows an empty mask
UNPLACED = "no address"                           # a BAR that the guest's window does not hold
LOG = "log"                                       # a line of the kernel's log that is not on the list of usual ones


@dataclass
class Case:
    name: str
    declaration: Declaration
    listed: set = field(default_factory=set)      # differences that may be shown
    shown: set = field(default_factory=set)       # differences that have to be shown
    boots: tuple = BOOTS
    one_by_one: bool = False                      # Linux finds each function in a scan of its own

    def stays(self):
        """Whether Linux is to leave every BAR where the placement put it."""
        return self.listed <= {EFFECT, LOG} and not self.one_by_one


def power_management():
    return Capability(1, bytes.fromhex("030000000000"), bytes.fromhex("000003000000"))


def msi():
    return Capability(5, bytes.fromhex("8000") + bytes(10), bytes.fromhex("7100fcffffff") + b"\xff" * 6)


def vendor(body=b"\x10log disk", mask=None, effects=()):
    return Capability(9, body, mask, list(effects))


def several():
    """Five functions; BARs of 16 bytes to 16 MiB."""
    return Declaration([
        Function(0, (0x1AF4, 0x1110, 0x1AF4, 0x1100), 1, (0x05, 0x80, 0x00), (1, 11),
                 [Bar(0, 16 * MIB), Bar(1, 16), Bar(2, 4 * KIB), Bar(3, 32), Bar(5, 64 * KIB)],
                 [(0x0C, 0x10, 0xFF), (0x3C, 5, 0xFF), (0xE0, 0xA5, 0x0F), (0xFF, 0x5A, 0)],
                 [power_management(), msi(), vendor()]),
        Function(3, (0xE123, 0x0001, 0xE123, 0x8001), 0xFE, (0xFF, 0x01, 0x02), (2, 0),
                 [Bar(0, 256), Bar(4, 16)], [], [msi(), power_management()]),
        Function(7, (0xE126, 0x0002, 0xE126, 0), 0, (0xFF, 0, 0), (4, 255),
                 [Bar(0, 1 * MIB), Bar(2, 32 * KIB), Bar(3, 16)], [], [vendor(b"", b""), msi()]),
        Function(30, (0xE124, 0xFFFF, 0, 0), 7, (0x0B, 0x40, 0), None, [Bar(2, 2 * MIB), Bar(5, 128)], [(0x40, 0x77, 0xFF)]),
        Function(31, (0xE125, 0, 0xFFFF, 0xFFFF), 0, (0x12, 0, 0), (3, 9), [], [], [power_management()])])


def order():
    """`several` with each BAR fixed where the placement puts it: Linux has no reason to move one."""
    bars = sorted(((bar, f) for f in several().functions for bar in f.bars), key=lambda pair: -pair[0].size)
    at, places = START, {}
    for bar, f in bars:
        places[f.device, bar.slot] = at
        at += bar.size
    d = several()
    for f in d.functions:
        for bar in f.bars:
            bar.address = places[f.device, bar.slot]
    return d


def one(bars, aperture=WINDOW):
    return Declaration([Function(0, bars=bars, capabilities=[msi()])], aperture)


def express():
    """A PCI Express endpoint's capability, version 2, with every optional part absent."""
    return Capability(16, bytes.fromhex("0200") + bytes(56))


def named():
    effects = vendor(bytes(range(22)), None, [Effect(1, 4, 8, READ), Effect(2, 13, 1, READ), Effect(3, 16, 4, WRITE),
                                              Effect(4, 20, 4, BOTH)])
    yield Case("several functions, all automatic", several())
    yield Case("no function has a BAR", Declaration([Function(2), Function(9, intx=(1, 3))]))
    yield Case("eight functions of six BARs", Declaration([
        Function(d, (0xE200, d, 0xE200, d), bars=[Bar(s, 16 << (d + s) % 9) for s in range(6)], capabilities=[msi()])
        for d in range(8)]))
    yield Case("a window that is filled", Declaration([
        Function(4, bars=[Bar(0, 128 * MIB), Bar(1, 64 * MIB), Bar(2, 32 * MIB), Bar(3, 16 * MIB), Bar(4, 8 * MIB),
                          Bar(5, 8 * MIB)])]))
    yield Case("sixteen capabilities", Declaration([Function(1, capabilities=[Capability(i, bytes((i,) * (i % 8))) for i in (
        9, 10, 15, 9, 6, 9, 10, 15, 9, 6, 9, 10, 15, 9, 6, 9)])]))
    yield Case("Express capability, 256 bytes", Declaration([Function(0, bars=[Bar(0, 16)], capabilities=[express(), msi()])]))
    yield Case("aperture ends before the window", Declaration(several().functions, (START, START + 32 * MIB)))
    yield Case("fixed in the order of placement", order())
    yield Case("one fixed BAR with room below", one([Bar(0, 16, START + 16)]), {RESET}, {RESET})
    yield Case("fixed BARs that Linux swaps", one([Bar(0, 16, START + 16), Bar(1, 16, START)]), {KEPT}, {KEPT})
    yield Case("swapped across functions", Declaration([
        Function(0, bars=[Bar(0, 16, START + 16)], capabilities=[msi()]),
        Function(1, bars=[Bar(0, 16, START)], capabilities=[msi()])]), {KEPT}, {KEPT})
    yield Case("automatic, found one by one", Declaration([
        Function(0, bars=[Bar(0, 16)], capabilities=[msi()]),
        Function(1, bars=[Bar(0, 32)], capabilities=[msi()])]), {KEPT}, {KEPT}, one_by_one=True)
    yield Case("ordered by size, found one by one", Declaration([
        Function(0, bars=[Bar(0, 32), Bar(1, 16)], capabilities=[msi()]),
        Function(1, bars=[Bar(0, 16)], capabilities=[msi()])]), one_by_one=True)
    yield Case("aperture starts above the window", one([Bar(0, 16)], (START + 16, START + 32)), {KEPT}, {KEPT})
    yield Case("effects", Declaration([Function(0, bars=[Bar(0, 256)], capabilities=[msi(), effects])]), {EFFECT}, {EFFECT})
    yield Case("an effect of one byte", Declaration([Function(0, capabilities=[Capability(9, b"\x55", None, [
        Effect(1, 2, 1, READ)])])]), {EFFECT}, {EFFECT})
    yield Case("aperture wider than the window", Declaration(several().functions, (0x80000000, END)), {RESET}, {RESET})
    yield Case("a BAR larger than the window", Declaration([Function(0, bars=[Bar(0, 512 * MIB)])], (0x80000000, END)),
               {UNPLACED, LOG}, {UNPLACED})
    yield Case("a BAR of 4 GiB", Declaration([Function(0, bars=[Bar(0, 1 << 32)])], (0, END)), {WHOLE}, {WHOLE})
    yield Case("class of a bridge", Declaration([Function(0, kind=(6, 4, 0), bars=[Bar(0, 16)])]), {CLASS, LOG}, {CLASS})
    yield Case("class of an IDE controller", Declaration([Function(0, kind=(1, 1, 0), bars=[Bar(0, 16)])]), {CLASS, LOG}, {CLASS})
    yield Case("class of a display", Declaration([Function(0, kind=(3, 0, 0), bars=[Bar(0, 16)])]), {LOG}, {LOG})


def whole():
    return Case("every dword of 16 MiB", one([Bar(REGISTERS, 16), Bar(1, 16 * MIB)]), boots=BOOTS[:1])


def a_function(r, device, fixed):
    bound = r.random() < 0.6
    f = Function(device, (r.randrange(0xE000, 0xEF00), *(r.randrange(0x10000) for _ in range(3))), r.randrange(256),
                 (r.choice((0x02, 0x05, 0x07, 0x08, 0x0B, 0x10, 0x11, 0x12, 0xFF)), r.choice((0x80, 0x40)), r.randrange(256)),
                 r.choice((None, (r.randrange(1, 5), r.randrange(256)))))
    for slot in sorted(r.sample(range(6), r.randrange(7))):
        most = 24 if slot == 0 or not bound else 13
        size = 1 << r.randrange(4, most + 1)
        f.bars.append(Bar(slot, size, r.randrange(START, START + 64 * MIB) // size * size if r.random() < fixed else None))
    f.capabilities = [power_management()] * (r.random() < 0.5) + [msi()] * bound
    for _ in range(r.randrange(4)):
        body = r.randbytes(r.randrange(20))
        f.capabilities.append(Capability(r.choice((9, 10, 15, 6)), body, r.randbytes(len(body))))
    r.shuffle(f.capabilities)
    at = max([0x40] + [at + 2 + len(c.body) for at, c in f.places()])
    f.bytes = [(o, r.randrange(256), r.randrange(256)) for o in r.sample([0x0C, 0x0D, 0x3C, *range(at, 256)], r.randrange(6))]
    return f


def at_random(seed, fixed, narrow, accepted):
    """A declaration that the product accepts; `fixed` of the BARs are fixed, and the aperture is narrower than the window."""
    r = random.Random(seed)
    while True:
        aperture = WINDOW
        if narrow:
            start = START + 16 * r.randrange(r.choice((1, 1 << 10, 1 << 20)))
            aperture = start, min(END, start + 16 * r.randrange(1, 1 << 22))
        devices = sorted(r.sample(range(32), r.randrange(1, 9)))
        d = Declaration([a_function(r, device, fixed) for device in devices], aperture)
        if accepted(d):
            return d


def randoms(seed, count, accepted):
    for k in range(count):
        yield Case(f"random, automatic {k}", at_random(f"{seed} automatic {k}", 0, False, accepted))
    for k in range(count // 3):
        yield Case(f"random, one by one {k}", at_random(f"{seed} one by one {k}", 0, False, accepted), {KEPT, RESET},
                   one_by_one=True)
    for k in range(count // 3):
        yield Case(f"random, fixed {k}", at_random(f"{seed} fixed {k}", 0.4, False, accepted), {KEPT, RESET})
    for k in range(count // 3):
        yield Case(f"random, narrow {k}", at_random(f"{seed} narrow {k}", 0, True, accepted), {KEPT, RESET})
