"""Compares what Linux said of each function with the product's enumeration, its reads and the declaration."""
import re

import cases
import library

DUMPS = ["power-on", "enabled", "after function resets", "after the driver", "after rescan", "after bus reset",
         "after reset and rescan"]
MEMORY = 0x200                                    # IORESOURCE_MEM
USUAL = re.compile(r"""root[ ]bus[ ]resource | PCI[ ]host[ ]bridge[ ]to | PCI:[ ]CLS | disabled[ ]VQ[ ]suspend
    | \[[0-9a-f]{4}:[0-9a-f]{4}\][ ]type[ ]00[ ]class | BAR[ ]\d[ ]\[mem[ ]0x[0-9a-f]+-0x[0-9a-f]+\](:[ ]assigned)?$
    | enabling[ ]device[ ]\([0-9a-f]{4}[ ]->[ ]0002\)""", re.X)
UPDATE = re.compile(r"pci \S+:(\w\w)\.0: BAR (\d).*: error updating \((0x\w+) != (0x\w+)\)")
LOUD = re.compile(r"WARNING:|BUG:|Oops|Call Trace|^PCI|^pci|^virtio-pci|write error")


class Checker:
    """found: (listed as, where, what, Linux's word, the other's word)."""

    def __init__(self, case, power_on):
        self.case, self.power_on, self.found, self.compared, self.left = case, power_on, [], 0, 0

    def same(self, where, what, linux, other, listed=None):
        self.compared += 1
        if linux != other:
            self.found.append((listed, where, what, linux, other))
            return False
        return True

    def listed(self):
        return [f for f in self.found if f[0] in self.case.listed]

    def unlisted(self):
        return [f for f in self.found if f[0] not in self.case.listed]

    def boot(self, name, boot, fresh):
        if boot.failure:
            self.same(name, "the boot", boot.failure, "ends by itself")
            return
        functions = self.case.declaration.functions
        self.same(name, "dumps", [d.phase for d in boot.dumps], DUMPS if boot.plan == "full" else DUMPS[:2])
        for dump in boot.dumps:
            self.same(f"{name}, {dump.phase}", "functions found", sorted(dump.functions), list(range(len(functions))))
            for k, f in enumerate(functions):
                if k in dump.functions:
                    self.function(f"{name}, {dump.phase}, device {f.device}", f, dump.functions[k], dump, fresh)
        self.log(name, boot)

    # ---- one function at one moment
    def function(self, where, f, said, dump, fresh):
        before = dump.bus.state.raw
        report = dump.bus.enumerate(f.device)
        self.same(where, "bus after the enumeration", dump.bus.state.raw == before, True)
        i, config = report.identity, said["config"]
        bridge = cases.CLASS if f.kind[:2] == (6, 4) else None
        ids = tuple(said[n] for n in ("vendor", "device", "subsystem_vendor", "subsystem_device"))
        self.same(where, "ids", ids, (i.vendor, i.device, i.subsystem_vendor, i.subsystem), bridge)
        self.same(where, "ids, declared", ids, f.ids, bridge)
        self.same(where, "revision", said["revision"], i.revision)
        self.same(where, "revision, declared", said["revision"], f.revision)
        kind = tuple(said["class"].to_bytes(3, "big"))
        self.same(where, "class", kind, (i.base_class, i.subclass, i.programming_interface), cases.CLASS)
        self.same(where, "class, declared", kind, f.kind, cases.CLASS)
        self.same(where, "pin", config[0x3D], report.pin)
        self.same(where, "pin, declared", config[0x3D], f.intx[0] if f.intx else 0)
        if dump.phase == "power-on" and fresh:
            self.same(where, "irq", said["irq"], config[0x3C] if config[0x3D] else 0)
        if dump.phase == "enabled" and any(flags & MEMORY for _start, _end, flags in said["resource"][:6]):
            self.same(where, "decoding of memory", config[0x04] & 2, 2)
        self.bars(where, f, said, report, dump, bridge)
        self.capabilities(where, f, config, report)
        self.config(where, f, config, dump, fresh)

    def bars(self, where, f, said, report, dump, bridge):
        declared = {bar.slot: bar.size for bar in f.bars}
        for slot, (start, end, flags) in enumerate(said["resource"][:6]):
            size, now, placed = end - start + 1 if flags else 0, report.slots[slot], self.power_on[f.device].slots[slot].address
            odd = cases.CLASS if flags and not flags & MEMORY else bridge
            if now.size > cases.END - cases.START:
                odd = cases.UNPLACED              # Linux drops a BAR that its window does not hold
            self.same(where, f"size of BAR {slot}", size, now.size, odd)
            whole = cases.WHOLE if declared.get(slot) == 1 << 32 else None
            self.same(where, f"size of BAR {slot}, declared", size, declared.get(slot, 0), odd or whole)
            if size:
                known = dump.kept.get((f.device, slot), (None,))[0] == start
                listed = odd or known and cases.KEPT or dump.phase == "after bus reset" and cases.RESET or None
                self.same(where, f"address of BAR {slot}", f"{start:#x}", f"{now.address:#x}", listed)
                if self.case.stays():
                    self.same(where, f"BAR {slot} stays where it was placed", f"{start:#x}", f"{placed:#x}")
                self.left += where.startswith("power-on, power-on") and start == placed
            if dump.phase == "after bus reset":
                self.same(where, f"BAR {slot} is back", now.address, placed)
        self.same(where, "expansion ROM", said["resource"][6], (0, 0, 0))

    def capabilities(self, where, f, config, report):
        chain, at = [], config[0x34] if config[0x06] & 0x10 else 0
        while 0 < at < 0xFF and len(chain) < 48:
            chain.append((at, config[at]))
            at = config[at + 1]
        effects = {offset & ~3 for offset in f.effect_bytes()}
        listed = cases.EFFECT if any(at in effects for at, _ in f.places()) else None
        self.same(where, "capabilities", chain, [(c.offset, c.id) for c in report.list[:report.list_count]], listed)
        self.same(where, "capabilities, declared", chain, [(at, c.id) for at, c in f.places()], listed)

    def config(self, where, f, config, dump, fresh):
        self.same(where, "length of config space", len(config), 256)
        now = b"".join(shown(dump.bus, f.device, offset) for offset in range(0, 256, 4))
        for offset in range(0, 256, 4):
            self.same(where, f"dword {offset:#04x}", config[offset:offset + 4].hex(), now[offset:offset + 4].hex())
        every, free = fresh and dump.phase == "power-on" or dump.phase == "after bus reset", stored(f)
        effects = {offset & ~3 for offset in f.effect_bytes()}
        for offset, (what, byte) in last(f.declared()).items():
            fixed = 0xFF if every else 0xFF ^ free.get(offset, 0)
            listed = cases.EFFECT if offset & ~3 in effects else None
            self.same(where, f"{what} at {offset:#04x}", config[offset] & fixed, byte & fixed, listed)

    # ---- the whole boot
    def log(self, name, boot):
        errors = []
        for phase, line in boot.log:
            update = UPDATE.match(line)
            if update:
                errors.append((int(update[1], 16), int(update[2]), int(update[3], 16) & ~15, int(update[4], 16) & ~15))
            elif LOUD.search(line) and not USUAL.search(line):
                self.same(f"{name}, {phase}", "kernel's log", line, "nothing to say", cases.LOG)
        index = {device: k for k, device in enumerate(boot.host.devices)}
        kept = [(index[device], slot, asked, left) for device, slot, asked, left in boot.host.all_kept]
        self.same(name, "each kept address is an error in the log", errors, kept)

    def memory(self, name, boot):
        """Every dword that the driver tried reached the BAR that Linux meant."""
        if boot.failure:
            return
        bound = {int(n.split(":")[2].split(".")[0], 16) for n in boot.bound}
        self.same(name, "functions that a driver was bound to", sorted(bound), boot.binding)
        kept = next((d.kept for d in boot.dumps if d.phase == "after the driver"), {})
        for k in sorted(bound):
            f = self.case.declaration.functions[k]
            for bar in f.bars:
                dwords = 1 if bar.slot == cases.REGISTERS else bar.size // 4
                listed = cases.KEPT if (f.device, bar.slot) in kept else None
                where = f"{name}, memory, device {f.device} BAR {bar.slot}"
                reached = {w: n for (d, s, w), n in boot.host.reached.items() if (d, s) == (f.device, bar.slot)}
                self.same(where, "accesses", sum(reached.values()), 2 * dwords, listed)
                self.same(where, "what they reached", sorted(reached), ["itself"], listed)
                self.same(where, "what was written is read", boot.memory.get((k, bar.slot)), True, listed)


def shown(bus, device, offset):
    """A dword as the product answers it; where it refuses, all ones, as the guest got them."""
    got = bus.read(device, offset, 4)
    if got.kind == library.VALUE:
        return got.value.to_bytes(4, "little")
    if got.kind == library.EFFECT:
        return bytes(bus.body.bytes[got.effect.offset - 2:got.effect.offset + 2])
    return b"\xff" * 4


def last(pieces):
    """offset -> (name, byte)."""
    return {offset + k: (what, byte) for what, offset, data in pieces for k, byte in enumerate(data)}


def stored(f):
    """offset -> the bits that a guest may change."""
    free = {0x04: 0x06, 0x05: 0x04}
    free.update({offset: mask for offset, _value, mask in f.bytes})
    for at, capability in f.places():
        free.update({at + 2 + k: mask for k, mask in enumerate(capability.masks())})
    return free
