"""A model of the board of its own, in integers and sets: what `board_rows` and `boots` hold the program against.

It was written after the rules in docs/PROFILE.md and not after the definitions in crates/mpb_spec. Agents, offers, ops
and answers are tuples whose first member is a name, as ("Cpu", 0), ("Collect", 2), ("Startup", 1, 0x9F), ("Started", 0x9F).
"""

ALL_CPU, ALL_IO = 255, 15


class Lapic:
    def __init__(self):
        self.irr, self.isr, self.tmr, self.tpr = set(), set(), set(), 0
        self.ldr, self.model = 0, 15

    def ppr(self):
        top = max(self.isr, default=0)
        return self.tpr if self.tpr >> 4 >= top >> 4 else top & 0xF0

    def owns(self, dest):
        """Whether a logical destination is its own."""
        common = dest & self.ldr
        if self.model == 0:
            common = common & 0x0F if dest >> 4 == self.ldr >> 4 else 0
        return dest == 0xFF or common > 0

    def next(self):
        top = max(self.irr, default=0)
        return top if top >> 4 > self.ppr() >> 4 else None

    def accept(self, vector, level):
        if vector < 16:
            return "Illegal"
        answer = "Merged" if vector in self.irr else "Set"
        self.irr.add(vector)
        (self.tmr.add if level else self.tmr.discard)(vector)
        return answer

    def take(self):
        vector = self.next()
        if vector is not None:
            self.irr.remove(vector)
            self.isr.add(vector)
        return vector

    def eoi(self):
        if not self.isr:
            return None
        vector = max(self.isr)
        self.isr.remove(vector)
        return vector, vector in self.tmr


class Pin:
    def __init__(self):
        self.entry, self.line, self.due, self.remote = 1 << 16, False, False, False

    def masked(self):
        return bool(self.entry >> 16 & 1)

    def mode(self):
        return self.entry >> 8 & 7

    def vector(self):
        return self.entry & 0xFF

    def level(self):
        return bool(self.entry >> 15 & 1) and self.mode() in (0, 1)

    def effect(self, before):
        return "Plain" if before == self.due else "Due" if self.due else "Withdrawn"


class IoApic:
    def __init__(self, number):
        self.index, self.number, self.arbitration = 0, number & 15, number & 15
        self.pins = [Pin() for _ in range(24)]

    def pin_of_index(self):
        return self.pins[(self.index - 16) >> 1] if 16 <= self.index < 64 else None

    def read(self):
        if self.index in (0, 2):
            return (self.number if self.index == 0 else self.arbitration) << 24
        if self.index == 1:
            return 0x00170011
        pin = self.pin_of_index()
        if pin is None:
            return 0
        if self.index & 1:
            return pin.entry >> 32
        return pin.entry & 0xFFFFFFFF | pin.due << 12 | pin.remote << 14

    def write(self, value):
        if self.index == 0:
            self.number = self.arbitration = value >> 24 & 15
        pin = self.pin_of_index()
        if pin is None:
            return "Plain"
        before = pin.due
        if self.index & 1:
            pin.entry = (value & 0xFF000000) << 32 | pin.entry & 0xFFFFFFFF
            return "Plain"
        pin.entry = pin.entry >> 32 << 32 | value & 0x1AFFF
        if not pin.level():
            pin.remote = False
        if pin.masked():
            pin.due = False
        elif pin.level():
            pin.due = pin.line and not pin.remote
        return pin.effect(before)

    def drive(self, number, high):
        pin = self.pins[number]
        before, rises, falls = pin.due, high and not pin.line, pin.line and not high
        pin.line = high
        if pin.level() and rises and not pin.masked() and not pin.remote:
            pin.due = True
        if pin.level() and falls:
            pin.due = False
        return pin.effect(before)

    def collect(self, mask):
        due = joined = 0
        for n, pin in enumerate(self.pins):
            if mask >> n & 1 and not pin.masked() and not pin.level():
                if pin.due:
                    joined |= 1 << n
                else:
                    due |= 1 << n
                pin.due = True
        return due, joined

    def next_due(self):
        return next((n for n, pin in enumerate(self.pins) if pin.due), None)

    def eoi(self, vector):
        for pin in self.pins:
            if pin.level() and pin.vector() == vector and pin.remote:
                pin.remote = False
                pin.due = pin.line and not pin.masked()


class Cpu:
    def __init__(self, number, version, program, boot):
        self.id, self.version, self.program, self.at = number, version, program, 0
        self.life, self.apic = ("First",) if boot else ("Asleep",), Lapic()

    def runs(self):
        return self.life[0] in ("First", "Started")


class Board:
    def __init__(self, c):
        self.boot, self.boot_len = c["boot"], c["boot_len"]
        self.cpus = [Cpu(n, v, p, n == c["boot"]) for n, v, p in c["cpus"]]
        self.ios = [IoApic(n) for n in c["ios"]]
        self.swept = [False] * len(c["ios"])
        self.collected = [[0] * 24 for _ in c["ios"]]
        self.plans = [[(w[1], w[2]) for w in words if w[0] == "Pulse"] for words in c["devices"]]
        self.devs = [[("Begin",)] + [w for w in words if w[0] != "Pulse"] + [("End",)] for words in c["devices"]]
        self.dev_at = [0] * len(c["devices"])
        self.imcr, self.warm = "Pic" if c["imcr"] else "Absent", None

    def cpu(self, number):
        return next((p for p in self.cpus if p.id == number), None)

    def through(self):
        return self.cpu(self.boot).at >= self.boot_len

    def targets(self, dest, everyone):
        """Those of a physical destination, or of a logical one, which has no byte for everyone."""
        if everyone is None:
            return [p for p in self.cpus if p.apic.owns(dest)]
        return [p for p in self.cpus if dest == everyone or p.id == dest]

    def deliver(self, dest, everyone, kind, vector=0, level=False):
        targets = self.targets(dest, everyone)
        if kind == "Lowest":
            kind, running = "Fixed", [p for p in targets if p.runs()]
            targets = sorted(running, key=lambda p: (p.apic.ppr(), p.id))[:1] or targets
        return [(p.id, self.receive(p, kind, vector, level)) for p in targets] or [(dest, ("Absent",))]

    def receive(self, p, kind, vector, level):
        new = p.version >= 16
        if kind == "Init":
            if new and p.life[0] in ("Asleep", "Waiting"):
                p.life = ("Waiting",)
                return ("Waiting",)
            if not new and p.life[0] == "Asleep" and self.warm is not None:
                p.life = ("Started", self.warm)
                return p.life
            return ("Ignored",)
        if kind == "Startup":
            if p.life[0] == "Waiting":
                p.life = ("Started", vector)
                return p.life
            return ("Ignored",)
        if not p.runs():
            return ("Asleep",)
        return (p.apic.accept(vector, level),) if kind == "Fixed" else (kind,)

    def next_op(self, agent, offer):
        kind, n = agent
        if kind == "Cpu":
            p = self.cpu(n)
            if p is None or offer[0] != "Next" or not p.runs() or p.at >= len(p.program):
                return None
            op = p.program[p.at]
            return None if op[0] == "Take" and p.apic.next() is None else op
        if kind == "Dev":
            if n >= len(self.devs) or offer[0] != "Next" or self.dev_at[n] >= len(self.devs[n]):
                return None
            op = self.devs[n][self.dev_at[n]]
            return None if op[0] == "Begin" and not self.through() else op
        if n >= len(self.ios):
            return None
        if offer[0] == "Next":
            pin = self.ios[n].next_due()
            return None if pin is None else ("Send", pin)
        if offer[0] == "Sweep":
            ended = all(at >= len(ops) for at, ops in zip(self.dev_at, self.devs))
            return ("Sweep",) if ended and not self.swept[n] else None
        named = [pin for pin in range(24) if offer[1] >> pin & 1]
        planned = [sum(plan.count((n, pin)) for plan in self.plans) for pin in range(24)]
        left = all(self.collected[n][pin] < planned[pin] for pin in named)
        fits = 0 < offer[1] < 1 << 24
        return ("Collect", offer[1]) if self.through() and fits and not self.swept[n] and left else None

    def make(self, agent, op):
        kind, n = agent
        answer = getattr(self, "op_" + op[0].lower())(n, *op[1:])
        if kind == "Cpu":
            self.cpu(n).at += 1
        if kind == "Dev":
            self.dev_at[n] += 1
        return answer if isinstance(answer, list) else [(0, answer or ("Done",))]

    def op_pause(self, *_):
        return ("Done",)

    op_begin = op_end = op_pause

    def op_imcr(self, _):
        self.imcr = "Apic"

    def op_warm(self, _, page):
        self.warm = page

    def op_init(self, _, d):
        return self.deliver(d, ALL_CPU, "Init")

    def op_startup(self, _, d, page):
        return self.deliver(d, ALL_CPU, "Startup", page)

    def op_check(self, _, d):
        p = self.cpu(d)
        if p is None:
            return [(d, ("Absent",))]
        return [(d, {"First": ("RunsFirst",), "Started": ("Runs",) + p.life[1:]}.get(p.life[0], p.life))]

    def op_ipi(self, _, d, v):
        return self.deliver(d, ALL_CPU, "Fixed", v)

    def op_ipl(self, _, d, v):
        return self.deliver(d, None, "Fixed", v)

    def op_ldr(self, n, value):
        self.cpu(n).apic.ldr = value

    def op_dfr(self, n, value):
        self.cpu(n).apic.model = value

    def op_nmi(self, _, d):
        return self.deliver(d, ALL_CPU, "Nmi")

    def op_poll(self, n):
        v = self.cpu(n).apic.take()
        return ("Nothing",) if v is None else ("Taken", v)

    op_take = op_poll

    def op_eoi(self, n):
        ended = self.cpu(n).apic.eoi()
        if ended is None:
            return ("Nothing",)
        if ended[1]:
            for io in self.ios:
                io.eoi(ended[0])
        return ("Ended",) + ended

    def op_tpr(self, n, value):
        self.cpu(n).apic.tpr = value

    def op_iosel(self, _, a, index):
        self.ios[a].index = index

    def op_iowin(self, _, a, value):
        return (self.ios[a].write(value),)

    def op_ioread(self, _, a):
        return ("Read", self.ios[a].read())

    def op_high(self, _, a, pin):
        return (self.ios[a].drive(pin, True),)

    def op_low(self, _, a, pin):
        return (self.ios[a].drive(pin, False),)

    def op_collect(self, a, mask):
        for pin in range(24):
            self.collected[a][pin] += mask >> pin & 1
        return ("Pins",) + self.ios[a].collect(mask)

    def op_sweep(self, a):
        self.swept[a] = True

    def op_send(self, a, n):
        pin = self.ios[a].pins[n]
        kind = {0: "Fixed", 1: "Lowest", 2: "Passed", 4: "Nmi", 7: "Passed"}.get(pin.mode())
        if kind is None:
            outcomes = [(0, ("Unheard",))]
        elif pin.entry >> 11 & 1:
            outcomes = self.deliver(pin.entry >> 56, None, kind, pin.vector(), pin.level())
        else:
            outcomes = self.deliver(pin.entry >> 56 & 15, ALL_IO, kind, pin.vector(), pin.level())
        pin.due = False
        if pin.level() and any(what[0] in ("Set", "Merged") for _, what in outcomes):
            pin.remote = True
        return outcomes
