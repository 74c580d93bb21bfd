"""What a log says of its machine, entry by entry: the state after each, what each actor does next, and whether an entry is allowed.

A module of the tools beside it, and no command. It follows docs/formats.md ("Judging a log") and docs/definitions.md; where those are
changed, this is. The judge is `acpi_events check`; `tools/try_tools` compares the verdicts here with its own on every log of the repository.

State.enter makes what an entry leaves, and returns the names of the pieces of state that it touched:

    ("lock",)  ("event", NAME)  ("ec",)  ("job", WORKER)  ("cell", CELL)  ("queue",)  ("next", ACTOR)

A new kind of entry is a pattern in FORMS, a rule in State.refusal, and a method on_WORD that says what it leaves.
"""
import collections
import re

import description

FIXED = description.FIXED
PARKED = 16  # runs in a row under an asserted line
WORDS = 200000  # lines whose words are kept

EVENT = r"(?:tmr|gbl|pwr|slp|rtc|g[0-9A-F]{2})"
ACTOR = r"(?:int|poll|ec|w[0-3]|[df][0-7])"
BYTE, CELL, COUNT = r"[0-9A-F]{2}", r"[0-9A-F]{2}:[0-9A-F]{4}", r"(?:0|[1-9][0-9]{0,9})"
FORMS = {
    "seek": "", "busy": "", "woken": "", "own": "", "disown": "", "leave": "[01]", "read": CELL + " " + BYTE, "write": CELL + " " + BYTE,
    "begin": "(?:rd %s|wr %s %s|be|bd|qr)" % (BYTE, BYTE, BYTE), "step": "(?:sc|data|get) " + BYTE, "ctl": "(?:taken|out %s|put|calm)" % BYTE,
    "take": "(?:%s|-)" % BYTE, "push": BYTE, "raise": EVENT, "latch": EVENT, "assert": EVENT, "drop": EVENT, "claim": EVENT,
    "start": COUNT, "finish": COUNT, "notify": BYTE + " " + BYTE, "up": EVENT, "down": EVENT,
}
ENTRY = re.compile(ACTOR + " (?:" + "|".join(word + (" " + form if form else "") for word, form in FORMS.items()) + ")")
STUCK, REST = re.compile("stuck (%s)" % EVENT), re.compile("rest (%s)" % COUNT)

# The entries that pass the next act of their actor.
PASSES = {"own", "disown", "read", "write", "take", "push", "raise", "assert", "drop", "notify", "up", "down"}
BY_FIRMWARE, BY_HOST = {"push", "raise", "assert"}, {"latch", "claim"}
BY_WORKER = {"start", "finish", "notify", "up", "down"}
COMMANDS = {"rd": "80", "wr": "81", "be": "82", "bd": "83", "qr": "84"}


class BadLog(Exception):
    """A line that has not the form of a line that may stand there."""

    def __init__(self, line, why=""):
        super().__init__("BadLog %d" % line)
        self.line, self.why = line, why


def rank(event):
    """The order of events: fixed ones first, then GPEs by number."""
    return (FIXED.index(event), "") if event in FIXED else (len(FIXED), event)


def side(actor):
    """The side on which an actor competes for the Global Lock."""
    return {"w": "os", "f": "firmware"}.get(actor[0])


def other(which):
    return "firmware" if which == "os" else "os"


def wire(request, byte):
    """The moves of a request; the byte fills the blank of a read and of a query."""
    kind, *operands = request
    moves = [("step", "sc", COMMANDS[kind])]
    if kind == "rd":
        moves += [("ctl", "taken"), ("step", "data", operands[0]), ("ctl", "out", byte), ("step", "get", byte)]
    elif kind == "wr":
        moves += [("ctl", "taken"), ("step", "data", operands[0]), ("ctl", "taken"), ("step", "data", operands[1]), ("ctl", "put")]
    elif kind == "bd":
        moves += [("ctl", "taken")]
    else:
        answer = "90" if kind == "be" else byte
        moves += [("ctl", "out", answer), ("step", "get", answer)]
    return moves


MOVES = {"rd": 5, "wr": 6, "be": 3, "bd": 2, "qr": 3}

# ---- scripts


class Field:
    def __init__(self, place, item, machine):
        regions = machine["regions"]
        self.place, self.region, self.bit, self.width = place, item["region"], item["bit"], item["width"]
        self.update, self.first = item["update"], item["bit"] // 8
        self.count = (self.bit + self.width - 1) // 8 - self.first + 1
        self.inside = regions[self.region]["kind"] == "controller"
        self.locks = item["lock"] or self.inside and description.needs_lock(machine)

    def mask(self, k):
        """The bits of byte k that are the field's."""
        low, high = max(self.bit - 8 * (self.first + k), 0), min(self.bit + self.width - 8 * (self.first + k), 8)
        return (1 << high) - (1 << low)

    def joined(self, k, byte, so_far):
        """The value of the bytes so far with byte k."""
        shift = 8 * (self.first + k) - self.bit
        bits = byte & self.mask(k)
        return so_far | (bits << shift if shift >= 0 else bits >> -shift)

    def replaced(self, k, old, value):
        """Byte k once a value is written."""
        shift, mask = 8 * (self.first + k) - self.bit, self.mask(k)
        outside = {"preserve": old, "ones": 255, "zeros": 0}[self.update] & ~mask
        return outside | (value >> shift if shift >= 0 else value << -shift) & mask

    def cell(self, k):
        return "%02X:%04X" % (self.region, self.first + k)


class Act:
    """The next act of an actor: the words of its entry, the place of its operation, and whether it needs the Global Lock."""
    __slots__ = ("words", "place", "locked")

    def __init__(self, words, place, locked=False):
        self.words, self.place, self.locked = words, place, locked


def plan(fields, ops):
    """The acts of a script, one by one. Each is answered with the byte that it brought."""
    held, last, over = False, 0, 0
    for place, op in enumerate(ops):
        if over:
            over -= 1
            continue
        name = op[0]
        if name in ("read", "write", "add"):
            last = yield from on_field(fields[op[1]], op, place, held, last)
        elif name == "skip":
            over = 0 if last == op[1] else op[2]
        elif name in ("hold", "free"):
            held = name == "hold"
            yield Act(("seek",) if held else ("disown",), place)
        elif name == "notify":
            yield Act(("notify", "%02X" % op[1], "%02X" % op[2]), place)
        elif name == "push":
            yield Act(("push", "%02X" % op[1]), place)
        else:
            yield Act((name, op[1]), place)


def on_field(field, op, place, held, last):
    """An operation on a field, in burst mode and under the lock where it needs them; the value that was read last."""
    locked, takes, bursts = field.locks or held, field.locks and not held, field.inside and field.count > 1
    if takes:
        yield Act(("seek",), place)
    if bursts:
        yield Act(("begin", "be"), place, locked)
    value = op[2] if op[0] == "write" else 0
    if op[0] != "write":
        last = 0
        for k in range(field.count):
            last = field.joined(k, (yield access(field, k, place, locked)), last)
        value = last + op[2] if op[0] == "add" else 0
    if op[0] != "read":
        value %= 1 << field.width
        for k in range(field.count):
            old = 0
            if field.update == "preserve" and field.mask(k) != 255:
                old = yield access(field, k, place, locked)
            yield access(field, k, place, locked, "%02X" % field.replaced(k, old, value))
    if bursts:
        yield Act(("begin", "bd"), place, locked)
    if takes:
        yield Act(("disown",), place)
    return last


def access(field, k, place, locked, byte=None):
    if field.inside:
        return Act(("begin", "rd", "%02X" % (field.first + k)) if byte is None else ("begin", "wr", "%02X" % (field.first + k), byte), place, locked)
    return Act(("read", field.cell(k)) if byte is None else ("write", field.cell(k), byte), place, locked)


def query_plan(locked):
    """What a query job does: it asks the controller for the first code, under the lock if the controller needs it."""
    if locked:
        yield Act(("seek",), None)
    yield Act(("begin", "qr"), None, locked)
    if locked:
        yield Act(("disown",), None)


# ---- the state of a machine


class Slot:
    """The registers of an event."""
    __slots__ = ("kind", "status", "line", "held", "refs", "storm", "latches")

    def __init__(self, kind, refs):
        self.kind, self.refs = kind, refs
        self.status = self.line = self.held = False
        self.storm = self.latches = 0

    @property
    def parked(self):
        return self.kind == "level" and self.storm >= PARKED

    @property
    def enabled(self):
        return (self.kind == "always" or self.refs > 0) and not self.held and not self.parked

    @property
    def pending(self):
        return self.status and self.enabled


class Job:
    """A job: what runs it, by the name in a log's words, and the line that made it."""
    __slots__ = ("kind", "name", "line")

    def __init__(self, kind, name, line):
        self.kind, self.name, self.line = kind, name, line


class Open:
    """The open transaction."""
    __slots__ = ("by", "asks", "made", "out")

    def __init__(self, by, asks):
        self.by, self.asks, self.made, self.out = by, asks, 0, None


class State:
    """What the entries so far have made of a machine. Lines count from 1, and the machine's line is line 1."""

    def __init__(self, machine):
        self.machine, self.line = machine, 1
        self.actors = description.actors_of(machine)
        self.fields = [Field(k, it, machine) for k, it in enumerate(machine["fields"])]
        own = machine["controller"]
        self.own, self.silent, self.fickle = (own["event"], own["silent"], own["fickle"]) if own else (None, False, False)
        self.slots = {"gbl": Slot("always", 0)}
        if own:
            self.slots[self.own] = Slot("always", 0)
        self.scripts, self.handlers = {}, {}
        for it in machine["events"]:
            event, level = description.event_of(it["name"])
            self.slots.setdefault(event, Slot("level" if level else "edge", it["refs"]))
            self.scripts[event], self.handlers[event] = it["script"], it["name"]
        self.queries = {it["name"][2:]: it["script"] for it in own["queries"]} if own else {}
        self.pulses = collections.Counter(event for device in machine["devices"] for event in device)
        self.space = next((k for k, it in enumerate(machine["regions"]) if it["kind"] == "controller"), None)
        # the Global Lock
        self.owner, self.seeker = None, {"os": None, "firmware": None}
        self.owned, self.disowned, self.busy = set(), set(), set()
        self.wake = {"os": False, "firmware": False}
        self.leaves, self.busies = {"os": 0, "firmware": 0}, {"os": 0, "firmware": 0}
        self.first_leaver = {"os": None, "firmware": None}
        # Pending: a busy marks the turn of the other side that owns the word, or, where that has left with a signal already, the one before.
        self.marked, self.unsaid = {"os": False, "firmware": False}, {"os": 0, "firmware": 0}
        # jobs
        self.jobs, self.starts, self.running = [], 0, {}
        # the controller
        self.open, self.codes, self.burst, self.due = None, collections.deque(), False, False
        self.input = self.output = None
        self.command = False
        # cells, and what each actor has to do
        self.cells = {}
        self.plans, self.next = {}, {}
        for k, script in enumerate(machine["firmware"]):
            self.begins("f%d" % k, plan(self.fields, script))

    # ---- what each actor has to do

    def begins(self, actor, acts):
        self.plans[actor] = acts
        self.next[actor] = next(acts, None)

    def passes(self, actor, byte):
        if self.next.get(actor):
            try:
                self.next[actor] = self.plans[actor].send(byte)
            except StopIteration:
                self.next[actor] = None

    def job_plan(self, job):
        if job.kind == "query":
            return query_plan(description.needs_lock(self.machine))
        return plan(self.fields, self.scripts[job.name] if job.kind == "event" else self.queries.get(job.name[2:], []))

    # ---- what is there

    def slot(self, event):
        slot = self.slots.get(event)
        if slot is None:
            slot = self.slots[event] = Slot("unknown", 0)
        return slot

    def cell(self, cell):
        """The byte of a cell, as two digits."""
        found = self.cells.get(cell)
        if found is None:
            region, offset = int(cell[:2], 16), int(cell[3:], 16)
            regions = self.machine["regions"]
            its = regions[region]["bytes"] if region < len(regions) else []
            found = "%02X" % (its[offset] if offset < len(its) else 0)
        return found

    def in_space(self, address):
        return "%02X:00%s" % (self.space if self.space is not None else 0, address)

    def word(self):
        """The two low bits of the lock's word, as the entries show them: 2 while it is owned, and 3 once it is marked as pending.

        Attempts and releases write no line. A busy entry may stand before the `own` of the turn that it marked: then that turn has begun. And it may
        stand after the `leave` of it: then it marks no later turn.
        """
        if self.owner is not None:
            return 3 if self.marked[side(self.owner)] else 2
        return 3 if any(self.marked[which] and self.seeker[which] not in self.disowned for which in ("os", "firmware")) else 0

    def registers(self):
        """The flags of EC_SC that are set, by their names."""
        flags = [("OBF", self.output is not None), ("IBF", self.input is not None), ("CMD", self.command), ("BURST", self.burst),
                 ("SCI_EVT", bool(self.codes))]
        return [name for name, is_set in flags if is_set]

    def blank(self):
        """The byte that the open request is answered with."""
        if self.open.out is not None:
            return self.open.out
        if self.open.asks[0] == "rd":
            return self.cell(self.in_space(self.open.asks[1]))
        return self.codes[0] if self.open.asks[0] == "qr" and self.codes else "00"

    def next_move(self):
        """The next move of the open transaction, None where there is none."""
        if self.open is None or self.open.made >= MOVES[self.open.asks[0]]:
            return None
        return wire(self.open.asks, self.blank())[self.open.made]

    def taking(self):
        """The word of the take that ends the open transaction, None before its last move."""
        if self.open is None or self.open.made != MOVES[self.open.asks[0]]:
            return None
        return "-" if self.open.asks[0] in ("wr", "bd") else "90" if self.open.asks[0] == "be" else self.blank()

    def stuck(self):
        """The events that are parked, in order."""
        return sorted((event for event, slot in self.slots.items() if slot.parked), key=rank)

    # ---- whether an entry is allowed

    def refusal(self, actor, words):
        """The name of the first condition that the entry breaks, None where it is allowed."""
        deed = words[0]
        if not self.may_make(actor, deed):
            return "Actor"
        has_quit = actor in self.disowned and self.seeker.get(side(actor)) == actor
        if has_quit != (deed == "leave"):
            return "Seeker"
        return getattr(self, "row_" + deed, self.row_act)(actor, words)

    def may_make(self, actor, deed):
        kind = actor[0]
        known = actor in self.actors and kind != "d"
        if deed == "step":
            if self.open is None or self.open.by[0] == "w":
                return kind in "ip" or kind == "f" and known and self.open is None
            return known and actor == self.open.by
        if deed == "ctl":
            return known and kind == "e"
        if deed in BY_HOST:
            return kind in "ip"
        if deed in BY_FIRMWARE:
            return known and kind == "f"
        return known and kind == "w" if deed in BY_WORKER else known and kind in "wf"

    def is_next(self, actor, words):
        act = self.next.get(actor)
        return act is not None and (act.words == words[:2] if words[0] == "read" else act.words == words)

    def is_trying(self, actor):
        return self.seeker[side(actor)] == actor and actor not in self.owned

    def row_act(self, actor, words):
        return None if self.is_next(actor, words) else "Next"

    def row_seek(self, actor, words):
        return self.row_act(actor, words) or (None if self.seeker[side(actor)] is None else "Seeker")

    def row_busy(self, actor, words):
        return "Seeker" if not self.is_trying(actor) else "Busy" if actor in self.busy else None

    def row_woken(self, actor, words):
        if not self.is_trying(actor):
            return "Seeker"
        return "Busy" if actor not in self.busy else None if self.wake[side(actor)] else "Wake"

    def row_own(self, actor, words):
        return self.row_busy(actor, words) or (None if self.owner is None else "Owner")

    def row_disown(self, actor, words):
        return "Owner" if self.owner != actor else self.row_act(actor, words)

    def row_leave(self, actor, words):
        return None

    def row_read(self, actor, words):
        return self.row_act(actor, words) or (None if self.cell(words[1]) == words[2] else "Value")

    def row_begin(self, actor, words):
        return self.row_act(actor, words) or (None if self.open is None else "Begin")

    def row_step(self, actor, words):
        if self.open is None:
            return "Begin"
        return "Wire" if self.next_move() != words else "Due" if actor == "int" and not self.due else None

    def row_ctl(self, actor, words):
        if words[1] == "calm":
            return None if self.fickle and self.burst and self.open is None else "Wire"
        return "Begin" if self.open is None else None if self.next_move() == words else "Wire"

    def row_take(self, actor, words):
        if self.open is None or self.open.by != actor:
            return "Begin"
        taking = self.taking()
        return "Wire" if taking is None else None if taking == words[1] else "Value"

    def row_latch(self, actor, words):
        return None if self.slot(words[1]).latches < self.pulses[words[1]] else "Latch"

    def row_claim(self, actor, words):
        return None if self.slot(words[1]).pending else "Status"

    def row_start(self, actor, words):
        allowed = actor not in self.running and int(words[1]) == self.starts < len(self.jobs)
        return None if allowed else "Job"

    def row_finish(self, actor, words):
        if self.running.get(actor) != int(words[1]):
            return "Job"
        return None if self.next.get(actor) is None else "Next"

    # ---- what an entry leaves

    def enter(self, actor, words):
        """Makes what an entry leaves, allowed or not, and returns the pieces of state that it touched."""
        self.line += 1
        deed = words[0]
        touched = getattr(self, "on_" + deed)(actor, *words[1:])
        if deed in PASSES:
            byte = words[-1] if deed in ("read", "take") else "-"
            self.passes(actor, 0 if byte == "-" else int(byte, 16))
            touched.append(("next", actor))
        return touched

    def on_seek(self, actor):
        if side(actor):
            self.seeker[side(actor)] = actor
        self.owned.discard(actor)
        self.disowned.discard(actor)
        self.busy.discard(actor)
        return [("lock",)]

    def on_busy(self, actor):
        self.busy.add(actor)
        if side(actor):
            self.busies[side(actor)] += 1
            marked = other(side(actor))
            if self.unsaid[marked]:
                self.unsaid[marked] -= 1
            else:
                self.marked[marked] = True
        return [("lock",)]

    def on_woken(self, actor):
        self.busy.discard(actor)
        if side(actor):
            self.wake[side(actor)] = False
        return [("lock",)]

    def on_own(self, actor):
        self.owner = actor
        self.owned.add(actor)
        return [("lock",)]

    def on_disown(self, actor):
        self.owner = None
        self.disowned.add(actor)
        return [("lock",)]

    def on_leave(self, actor, signal):
        which, touched = side(actor), [("lock",)]
        if which:
            self.seeker[which] = None
            self.unsaid[which] += signal == "1" and not self.marked[which]
            self.marked[which] = False
        if signal == "1" and which:
            self.leaves[which] += 1
            self.first_leaver[which] = self.first_leaver[which] or actor
            if which == "firmware":
                self.slots["gbl"].status = True
                touched.append(("event", "gbl"))
            else:
                self.wake["firmware"] = True
        return touched

    def on_raise(self, actor, event):
        self.slot(event).status = True
        return [("event", event)]

    def on_latch(self, actor, event):
        self.slot(event).latches += 1
        return self.on_raise(actor, event)

    def on_assert(self, actor, event):
        slot = self.slot(event)
        slot.status, slot.line, slot.storm = True, True, 0
        return [("event", event)]

    def on_drop(self, actor, event):
        slot = self.slot(event)
        slot.line, slot.storm = False, 0
        return [("event", event)]

    def on_claim(self, actor, event):
        slot, touched = self.slot(event), [("event", event)]
        slot.held = slot.kind in ("edge", "level")
        slot.status = slot.kind == "level" and slot.status
        if event == "gbl":
            self.wake["os"] = True
            touched.append(("lock",))
        if actor == "int" and event == self.own:
            self.due = True
        if slot.held:
            touched += self.made("event", event)
        elif event == self.own and self.codes:
            touched += self.made("query", "query")
        return touched

    def made(self, kind, name):
        self.jobs.append(Job(kind, name, self.line))
        return [("queue",)]

    def on_up(self, actor, event):
        slot = self.slot(event)
        slot.refs = min(slot.refs + 1, 255)
        return [("event", event)]

    def on_down(self, actor, event):
        slot = self.slot(event)
        slot.refs = max(slot.refs - 1, 0)
        return [("event", event)]

    def on_start(self, actor, job):
        number = int(job)
        self.starts += 1
        self.running[actor] = number
        if number < len(self.jobs):
            self.begins(actor, self.job_plan(self.jobs[number]))
        else:
            self.begins(actor, iter(()))
        return [("job", actor), ("queue",), ("next", actor)]

    def on_finish(self, actor, job):
        number, touched = int(job), [("job", actor), ("next", actor)]
        self.running.pop(actor, None)
        self.begins(actor, iter(()))
        if number < len(self.jobs) and self.jobs[number].kind == "event":
            event = self.jobs[number].name
            slot = self.slot(event)
            slot.held = False
            if slot.kind == "level":
                slot.status = slot.line
            slot.storm = min(PARKED, slot.storm + 1) if slot.line else 0
            touched.append(("event", event))
        return touched

    def on_read(self, actor, cell, byte):
        return [("read", cell)]

    def on_write(self, actor, cell, byte):
        self.cells[cell] = byte
        return [("cell", cell)]

    def on_notify(self, actor, device, value):
        return []

    def on_push(self, actor, code):
        self.codes.append(code)
        touched = [("ec",)]
        if self.own:
            self.slot(self.own).status = True
            touched.append(("event", self.own))
        return touched

    def on_begin(self, actor, *request):
        self.open = Open(actor, request)
        return [("ec",)]

    def on_step(self, actor, move, byte):
        if self.open:
            self.open.made += 1
        if actor == "int":
            self.due = False
        if move == "get":
            self.output = None
        else:
            self.input, self.command = byte, move == "sc"
        return [("ec",)]

    def on_ctl(self, actor, effect, byte=None):
        touched = [("ec",)]
        if effect == "calm":
            self.burst = False
            return touched
        asks = self.open.asks if self.open else (None,)
        leaves = effect == "out" and asks[0] == "qr" and len(self.codes) > 1
        self.input = None
        if self.open:
            self.open.made += 1
        if effect == "out":
            self.output = byte
            if self.open:
                self.open.out = byte
            self.burst = self.burst or asks[0] == "be"
            if asks[0] == "qr" and self.codes:
                self.codes.popleft()
        elif effect == "taken" and asks[0] == "bd":
            self.burst = False
        elif effect == "put" and asks[0] == "wr":
            cell = self.in_space(asks[1])
            self.cells[cell] = asks[2]
            touched.append(("cell", cell))
        if self.own and (not self.silent or leaves):
            self.slot(self.own).status = True
            touched.append(("event", self.own))
        return touched

    def on_take(self, actor, byte):
        asks = self.open.asks if self.open else (None,)
        self.open = None
        return [("ec",)] + (self.made("code", "_Q" + byte) if asks[0] == "qr" and byte not in ("-", "00") else [])

    # ---- what is left

    def unfinished(self):
        """Each actor that has something left to do, in order, with why."""
        reasons = {actor: [] for actor in self.actors}
        pending = [event for event in sorted(self.slots, key=rank) if self.slots[event].pending]
        reasons["int"] += ["%s has status and is enabled" % event for event in pending]
        reasons["int"] += ["query code %s waits" % code for code in list(self.codes)[:1]]
        reasons["int"] += ["no pulse of %s was latched" % event for event in sorted(self.pulses, key=rank) if not self.slot(event).latches]
        move = self.next_move()
        if move and move[0] == "step" and self.open.by[0] == "w":
            reasons["poll"].append("the transaction of %s is open, and its next move is %s" % (self.open.by, " ".join(move)))
        if self.starts < len(self.jobs):
            reasons["w0"].append("job %d was not started" % self.starts)
        for actor, job in self.running.items():
            if actor in reasons:
                reasons[actor].append("job %d has no finish" % job)
        if move and move[0] == "ctl" and "ec" in reasons:
            reasons["ec"].append("the transaction of %s is open, and its next move is %s" % (self.open.by, " ".join(move)))
        for actor in self.actors:
            if actor[0] == "f" and self.next.get(actor):
                reasons[actor].append("its script has not ended: %s is next" % " ".join(self.next[actor].words))
        if self.seeker["firmware"] in reasons:
            reasons[self.seeker["firmware"]].append("it competes for the Global Lock")
        for which in ("os", "firmware"):
            if self.leaves[which] > self.busies[other(which)] and self.first_leaver[which] in reasons:
                reasons[self.first_leaver[which]].append("its side signalled %d times, and the other side was busy %d times" % (
                    self.leaves[which], self.busies[other(which)]))
        return [(actor, why) for actor, why in reasons.items() if why]


# ---- logs


class Log:
    """A log's machine and its lines. Lines that are no entries of a log are kept as they are, and `bad` is the first of them."""

    def __init__(self, text):
        self.lines = text.split("\n")
        if not self.lines[0].startswith("machine "):
            raise BadLog(1, "the first line is `machine ` and a description")
        try:
            self.machine = description.read(self.lines[0][len("machine "):])
        except description.Refused as error:
            raise BadLog(1, "its machine is refused: %s (expected %s)" % (error.answer, error.wanted)) from None
        self.is_canonical = description.canonical(self.machine) == self.lines[0][len("machine "):]
        self.cut = self.lines[-1] != ""
        if not self.cut:
            self.lines.pop()
        self.known, count = {}, 1
        for line in self.lines[1:]:
            if line not in self.known and not self.words(line):
                break
            count += 1
        self.entries = count - 1
        self.stuck, self.rest = [], None
        for line in self.lines[count:]:
            found = STUCK.fullmatch(line)
            if not found:
                break
            self.stuck.append(found[1])
        after = count + len(self.stuck)
        found = REST.fullmatch(self.lines[after]) if after < len(self.lines) else None
        if found and int(found[1]) < 2**32:
            self.rest = int(found[1])
            after += 1
        missing = 0 if self.rest is not None else after + 1
        self.bad = 1 if not self.is_canonical else after + 1 if after < len(self.lines) else len(self.lines) if self.cut else missing

    def words(self, line):
        """The actor and the words of an entry, None where the line is none."""
        found = self.known.get(line)
        if found is None and ENTRY.fullmatch(line):
            actor, *words = line.split(" ")
            if words[0] in ("start", "finish") and int(words[1]) >= 2**32:
                return None
            found = actor, tuple(words)
            if len(self.known) < WORDS:
                self.known[line] = found
        return found

    def entry(self, number):
        """The actor and the words of an entry, counted from 1; it stands in line `number` + 1."""
        return self.words(self.lines[number])

    def each(self):
        """The actors and the words of all entries, in order."""
        known = self.known
        for line in self.lines[1:self.entries + 1]:
            yield known.get(line) or self.words(line)


def verdict(log):
    """What `check` says of a log, by the model, and the state at its end or before its first wrong line."""
    state = State(log.machine)
    if log.bad:
        return "BadLog %d" % log.bad, state
    for actor, words in log.each():
        broken = state.refusal(actor, words)
        if broken:
            return "Illegal %d %s" % (state.line + 1, broken), state
        state.enter(actor, words)
    stuck = state.stuck()
    if log.stuck != stuck or log.rest != log.entries:
        same = 0
        while same < len(log.stuck) and log.stuck[same:same + 1] == stuck[same:same + 1]:
            same += 1
        return "Illegal %d Rest" % (log.entries + same + 2), state
    left = state.unfinished()
    return ("Unfinished " + left[0][0] if left else "complete %d" % log.entries), state


def read(path):
    """The log of a file. BadLog where its first line has no machine, OSError where it cannot be read."""
    with open(path, "rb") as file:
        return Log(file.read().decode("utf-8", "replace"))

# ---- what a reader is shown of a state


def facts(state, piece):
    """The facts of a piece of state, as pairs of a name and a value. A value that is off is None."""
    kind = piece[0]
    if kind == "event":
        event, slot = piece[1], state.slot(piece[1])
        return [(event + " status", slot.status or None), (event + " line", slot.line or None), (event + " held", slot.held or None),
                (event + " parked", slot.parked or None), (event + " enabled", slot.enabled or None), (event + " refs", slot.refs or None)]
    if kind == "lock":
        return [("lock owner", state.owner), ("lock word", state.word() or None), ("lock os", stands(state, "os")),
                ("lock firmware", stands(state, "firmware")), ("lock wake os", state.wake["os"] or None),
                ("lock wake firmware", state.wake["firmware"] or None)]
    if kind == "ec":
        flags = state.registers()
        asks = state.open and "%s %s" % (state.open.by, " ".join(state.open.asks))
        move = state.next_move()
        return [("ec request", asks), ("ec next", " ".join(move) if move else "take" if asks else None)] + [
            ("ec " + name, name in flags or None) for name in ("OBF", "IBF", "CMD", "BURST", "SCI_EVT")] + [
            ("ec input", state.input), ("ec output", state.output), ("ec codes", " ".join(state.codes) or None)]
    if kind == "job":
        return [("job " + piece[1], job_text(state, state.running.get(piece[1])))]
    if kind == "queue":
        return [("jobs waiting", len(state.jobs) - state.starts or None)]
    if kind == "next":
        act = state.next.get(piece[1])
        return [("next " + piece[1], " ".join(act.words) if act else None)]
    return [("cell " + piece[1], state.cell(piece[1]))]


def stands(state, which):
    """Where the actor of a side stands that competes for the lock."""
    actor = state.seeker[which]
    if actor is None:
        return None
    doing = "leaves" if actor in state.disowned else "owns" if actor in state.owned else "waits" if actor in state.busy else "tries"
    return actor + " " + doing


def job_text(state, number):
    if number is None:
        return None
    name = state.jobs[number].name if number < len(state.jobs) else ""
    return ("%d %s" % (number, state.handlers.get(name, name))).strip()


def pieces(state):
    """The pieces of state that a machine has at its start; cells come with the first entry that touches them."""
    found = [("lock",)] + [("event", event) for event in sorted(state.slots, key=rank)]
    found += [("ec",)] * (state.own is not None)
    workers = [actor for actor in state.actors if actor[0] == "w"]
    found += [("job", actor) for actor in workers] + [("queue",)]
    return found + [("next", actor) for actor in state.actors if actor[0] in "wf"]
