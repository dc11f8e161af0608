"""Boots Linux over the product, case by case, and compares; guest/run calls it after guest/build."""
import argparse
import collections
import os
import sys
import time
from pathlib import Path

import cases
import library
import slips
from boot import Boot, Hypervisor
from check import Checker

ASKED = ("config", "memory", "probing", "moved", "kept", "effect", "refused", "unknown")
ROOT = Path(__file__).resolve().parent.parent


def bindable(declaration):
    """Functions that the driver can be bound to: it wants MSI, and the BAR that it keeps its registers in."""
    return [k for k, f in enumerate(declaration.functions)
            if any(c.id == 5 for c in f.capabilities) and any(b.slot == cases.REGISTERS for b in f.bars)]


class Row:
    """What the table says of a case, or of several."""

    def __init__(self, name):
        self.name, self.n, self.files = name, collections.Counter(), 0
        self.listed, self.unlisted, self.not_shown = collections.Counter(), 0, []
        self.elsewhere = self.nothing = self.itself = 0

    def add(self, case, boots, checker):
        self.files += 1
        self.n["functions"] += len(case.declaration.functions)
        self.n["bars"] += sum(len(f.bars) for f in case.declaration.functions)
        self.n["compared"] += checker.compared
        self.n["left"] += checker.left
        for boot in boots:
            self.n["boots"] += 1
            self.n["bound"] += len(boot.bound)
            for what, count in boot.host.count.items():
                self.n[what] += count
            for (_, _, where), count in boot.host.reached.items():
                if where in ("itself", "nothing"):
                    setattr(self, where, getattr(self, where) + count)
                else:
                    self.elsewhere += count
        self.unlisted += len(checker.unlisted())
        self.listed += collections.Counter(f[0] for f in checker.listed())
        self.n["files with kept"] += any(boot.host.all_kept for boot in boots)
        for moment in ("power-on", "after rescan"):
            self.n["believed " + moment] += sum(kind == cases.KEPT and what.startswith("address of") and where.startswith(
                f"power-on, {moment}, ") for kind, where, what, _linux, _other in checker.found)
        self.not_shown += sorted(case.shown - {f[0] for f in checker.found})


class Runner:
    def __init__(self, folder, verbose=False, trace=False):
        self.folder, self.verbose, self.trace, self.begun = Path(folder), verbose, trace, time.time()
        self.vg = library.load(self.folder / "libvoussglen.so", ROOT / "include" / "voussglen.h")

    def say(self, text):
        print(f"{time.time() - self.begun:6.0f} s  {text}", flush=True)

    def start(self, declaration):
        return library.Bus.start(self.vg, declaration.file())

    def accepted(self, declaration):
        return self.start(declaration)[1].refusal == 0

    def case(self, case, slip=None):
        """The boots of one case on one bus, compared."""
        bus, started = self.start(case.declaration)
        if started.refusal:
            raise SystemExit(f"guest: {case.name} is refused with {started.refusal}")
        devices, boots = [f.device for f in case.declaration.functions], []
        checker = Checker(case, {device: bus.copy().enumerate(device) for device in devices})
        for name, plan, reset in case.boots:
            if reset:
                bus.reset()
            host = Hypervisor(bus, devices, slip)
            host.trace = [] if self.trace else None
            boot = Boot(self.folder, host, plan, bindable(case.declaration) if plan == "full" else (),
                        case.one_by_one).run()
            checker.boot(name, boot, reset is not False)
            if plan == "full":
                checker.memory(name, boot)
            boots.append(boot)
            for word, *rest in host.trace or ():
                if word == "phase":
                    print(f"{name}: {rest[0]}")
                else:
                    print(f"  {word} device {rest[0]} offset {rest[1]:#04x} width {rest[2]} value {rest[3]:#x}")
            if boot.failure:
                print("\n".join(f"          guest: {line}" for _phase, line in boot.log[-8:]), flush=True)
                break
        return boots, checker

    def shown(self, found, most):
        for listed, where, what, linux, other in found[:most]:
            print(f"          {where}: {what}: Linux {linux}, here {other}" + (f" [{listed}]" if listed else ""), flush=True)
        if len(found) > most:
            print(f"          and {len(found) - most} more", flush=True)

    def cases(self, chosen):
        rows = {}
        for case in chosen:
            begun = time.time()
            boots, checker = self.case(case)
            group = case.name.rsplit(" ", 1)[0] if case.name.startswith("random") else case.name
            row = rows.setdefault(group, Row(group))
            row.add(case, boots, checker)
            bad = checker.unlisted()
            kinds = collections.Counter(f[0] for f in checker.listed())
            words = [f"{n} {kind}" for kind, n in sorted(kinds.items())] + [f"NOT LISTED: {len(bad)}"] * bool(bad)
            self.say(f"{case.name}: {checker.compared} compared, {', '.join(words) or 'all the same'}"
                     f" ({time.time() - begun:.1f} s)")
            self.shown(bad, 12)
            if self.verbose:
                self.shown(checker.listed(), 12)
        return list(rows.values())

    def selftest(self):
        """How many slips were tried, and how many missed."""
        tried, missed, declaration, boots = 0, 0, slips.declaration(), cases.BOOTS[:1]
        clean = self.case(cases.Case("no slip", declaration, boots=boots))[1]
        if clean.found:
            self.say("self-test: a difference with no slip")
            self.shown(clean.found, 12)
            missed += 1
        for slip in slips.every():
            found = self.case(cases.Case(slip.name, declaration, boots=boots), slip)[1].unlisted()
            self.say(f"slip: {slip.name}: " + (f"noticed, {len(found)} differences" if found else "MISSED"))
            if self.verbose:
                self.shown(found, 3)
            tried, missed = tried + 1, missed + (not found)
        return tried, missed


def table(rows):
    columns = {
        "case": lambda r: r.name,
        "files": lambda r: r.files,
        "functions": lambda r: r.n["functions"],
        "BARs": lambda r: r.n["bars"],
        "left in place": lambda r: r.n["left"],
        "boots": lambda r: r.n["boots"],
        "compared": lambda r: r.n["compared"],
        "config reads": lambda r: sum(n for what, n in r.n.items() if what.startswith("config read")),
        "config writes": lambda r: sum(n for what, n in r.n.items() if what.startswith("config write")),
        "moved": lambda r: r.n["moved"],
        "kept": lambda r: r.n["kept"],
        "files with one kept": lambda r: r.n["files with kept"],
        "BARs that Linux believes elsewhere: at boot": lambda r: r.n["believed power-on"],
        "after rescan": lambda r: r.n["believed after rescan"],
        "memory accesses: right": lambda r: r.itself,
        "another BAR": lambda r: r.elsewhere,
        "nothing": lambda r: r.nothing,
        "listed differences": lambda r: ", ".join(f"{n} {kind}" for kind, n in sorted(r.listed.items())) or 0,
        "not listed": lambda r: r.unlisted,
    }
    print("\n| " + " | ".join(columns) + " |\n|" + "---|" * len(columns))
    for r in rows:
        print("| " + " | ".join(str(column(r)) for column in columns.values()) + " |")
    print()


def main():
    parser = argparse.ArgumentParser(prog="guest/run", description="Lets a Linux kernel ask the bus, and compares.")
    parser.add_argument("--random", type=int, default=45, metavar="N", help="random declarations, all automatic; a third as many "
                        "found one by one, with fixed BARs, and with a narrow aperture (45)")
    parser.add_argument("--seed", default="1", help="of the random declarations (1)")
    parser.add_argument("--only", metavar="TEXT", help="cases whose name has this text, and no self-test")
    parser.add_argument("--quick", action="store_true", help="six random declarations, no sweep of 16 MiB")
    parser.add_argument("--selftest", action="store_true", help="the self-test only")
    parser.add_argument("--verbose", action="store_true", help="show the listed differences too")
    parser.add_argument("--trace", action="store_true", help="show every access to config space")
    asked = parser.parse_args()
    runner = Runner(os.environ["VOUSSGLEN_GUEST"], asked.verbose, asked.trace)
    rows, tried, missed = [], 0, 0
    if not asked.selftest:
        chosen = list(cases.named()) + list(cases.randoms(asked.seed, 6 if asked.quick else asked.random, runner.accepted))
        chosen += [] if asked.quick else [cases.whole()]
        chosen = [c for c in chosen if not asked.only or asked.only in c.name]
        if not chosen:
            raise SystemExit(f"guest: no case has {asked.only!r} in its name")
        rows = runner.cases(chosen)
    if not asked.only:
        tried, missed = runner.selftest()
    if rows:
        table(rows)
    unlisted, not_shown = sum(r.unlisted for r in rows), [(r.name, k) for r in rows for k in r.not_shown]
    for name, kind in not_shown:
        print(f"{name}: the listed difference '{kind}' was not shown")
    total = collections.Counter()
    for r in rows:
        total += r.n
    runner.say("asked: " + ", ".join(f"{n} {what}" for what, n in sorted(total.items()) if what.startswith(ASKED)))
    runner.say(f"{sum(r.files for r in rows)} declarations, {total['boots']} boots, {total['compared']} comparisons, "
               f"{sum(sum(r.listed.values()) for r in rows)} listed differences, {unlisted} not listed; "
               f"{tried} slips, {missed} missed")
    sys.exit(1 if unlisted or not_shown or missed else 0)


if __name__ == "__main__":
    main()
