"""Says whether a report is one of a board's boots, by the model of the board and the rules of docs/PROFILE.md."""
import re

from board_model import Board

AGENT = re.compile(r"(\d+) (?:cpu ([0-9A-F]{2})|io (\d)|dev (\d)) (\S+)(?: (\S+))?")
# How the number of an op is shown, where it isn't in two hexadecimal digits.
SHOWN = {"Pause": "{}", "Send": "{}", "High": "{} {}", "Low": "{} {}", "Collect": "{:06X}", "IoSel": "{} {:02X}", "IoWin": "{} {:08X}", "IoRead": "{}"}
NO_TARGET = ("Done", "Unheard", "Taken", "Nothing", "Ended", "Plain", "Due", "Withdrawn", "Read", "Pins")


class Fault(Exception):
    """What is wrong with a report."""


def op_text(op):
    form = SHOWN.get(op[0], " ".join(["{:02X}"] * (len(op) - 1)))
    return " ".join([op[0].lower(), form.format(*op[1:])]).strip()


def life_text(life):
    return life[0].lower() + (f".{life[1]:02X}" if life[0] == "Started" else "")


def what_text(what):
    name, values = what[0], what[1:]
    if name == "Ended":
        return f"ended.{values[0]:02X}.{'level' if values[1] else 'edge'}"
    if name == "RunsFirst":
        return "runs.first"
    width = {"Read": 8, "Pins": 6}.get(name, 2)
    return ".".join([name.lower(), *(f"{value:0{width}X}" for value in values)])


def outcomes_text(outcomes):
    return " ".join(what_text(what) if what[0] in NO_TARGET else f"{target:02X}={what_text(what)}" for target, what in outcomes)


def agent_text(agent):
    return f"cpu {agent[1]:02X}" if agent[0] == "Cpu" else f"{agent[0].lower()} {agent[1]}"


def entry(board, number, line):
    """Makes the entry of a line on the board."""
    found = AGENT.match(line)
    if not found or found.group(1) != str(number):
        raise Fault(f"line of entry {number}: {line}")
    cpu, io, dev, name, value = found.groups()[1:]
    agent = ("Cpu", int(cpu, 16)) if cpu else ("Io", int(io)) if io else ("Dev", int(dev))
    offer = ("Next",)
    if agent[0] == "Io" and name in ("collect", "sweep"):
        offer = ("Sweep",) if name == "sweep" else ("Collect", int(value, 16))
    op = board.next_op(agent, offer)
    if op is None:
        raise Fault(f"entry {number} is no step: {line}")
    wanted = f"{number} {agent_text(agent)} {op_text(op)} : {outcomes_text(board.make(agent, op))}"
    if line != wanted:
        raise Fault(f"entry {number} is {line}, and not {wanted}")
    return agent, op


def left(board):
    """An agent that may step, if there is one."""
    agents = [("Cpu", cpu.id) for cpu in board.cpus] + [("Io", a) for a in range(len(board.ios))] + [("Dev", d) for d in range(len(board.devs))]
    offers = [("Next",), ("Sweep",)] + [("Collect", 1 << pin) for pin in {pin for plan in board.plans for _, pin in plan}]
    return next((agent for agent in agents for offer in offers if board.next_op(agent, offer) is not None), None)


def logs(board, lines, collections):
    """The pulses of the log lines account for the devices' plans and for the collections."""
    news, firsts = {}, {}
    for device, (plan, line) in enumerate(zip(board.plans, lines)):
        hits = [] if line == f"log {device} : none" else line.removeprefix(f"log {device} : ").split(" ")
        pulses = [hit.partition("=") for hit in hits]
        if [pulse for pulse, _, _ in pulses] != [f"{place}.{pin}" for place, pin in plan] or any(hit not in ("new", "merged") for _, _, hit in pulses):
            raise Fault(f"device {device} has the plan {plan} and the log {line}")
        seen = set()
        for pulse, _, hit in pulses:
            news[pulse] = news.get(pulse, 0) + (hit == "new")
            firsts.setdefault(pulse, []).extend([] if pulse in seen else [hit])
            seen.add(pulse)
    for pulse, count in news.items():
        if count != collections.get(pulse, 0) or "new" not in firsts[pulse]:
            raise Fault(f"pin {pulse}: {count} new hits, {collections.get(pulse, 0)} collections, first hits {firsts[pulse]}")


def state_lines(board):
    """The lines of the state in which the board is left."""

    def vectors(of):
        return ",".join(f"{vector:02X}" for vector in sorted(of)) or "-"

    def mask(io, test):
        return f"{sum(1 << n for n, pin in enumerate(io.pins) if test(pin)):06X}"

    yield f"state imcr {'none' if board.imcr == 'Absent' else board.imcr.lower()}"
    for cpu in sorted(board.cpus, key=lambda cpu: cpu.id):
        apic = cpu.apic
        sets = f"irr {vectors(apic.irr)} isr {vectors(apic.isr)} tmr {vectors(apic.tmr)}"
        yield f"state cpu {cpu.id:02X} {life_text(cpu.life)} tpr {apic.tpr:02X} {sets}"
    for place, io in enumerate(board.ios):
        masks = (mask(io, test) for test in (lambda pin: pin.line, lambda pin: pin.due, lambda pin: pin.remote))
        yield "state io {} line {} due {} remote {}".format(place, *masks)


def judge(config, text):
    board = Board(config)
    lines = text.decode("ascii").split("\n")
    count = int(lines[1].removeprefix("entries "))
    if lines[0] != "mpboot 1" or lines[-2:] != ["end", ""]:
        raise Fault("first or last line")
    collections = {}
    for number in range(count):
        agent, op = entry(board, number, lines[2 + number])
        if op[0] == "Collect":
            for pin in range(24):
                collections[f"{agent[1]}.{pin}"] = collections.get(f"{agent[1]}.{pin}", 0) + (op[1] >> pin & 1)
    agent = left(board)
    if agent:
        raise Fault(f"{agent_text(agent)} may step")
    rest = lines[2 + count : -2]
    logs(board, rest[: len(board.plans)], collections)
    wanted = list(state_lines(board))
    if rest[len(board.plans) :] != wanted:
        raise Fault(f"state lines {rest[len(board.plans):]}, and not {wanted}")


def fault_of(config, text):
    """What is wrong with the report, in a line, and `None` where it is right."""
    try:
        judge(config, text)
    except (Fault, ValueError, IndexError) as why:
        return str(why)
    return None
