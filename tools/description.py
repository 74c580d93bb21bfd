"""Descriptions, as docs/formats.md has them: reading one, the first fault of one, and where in its text a value stands.

A module of the tools beside it, and no command. What a description is refused for is said by `acpi_events`; the tools use this
module to find the place, and to say what was expected there. `tools/try_tools` compares its answers with those of the gate's table.
"""
import json
import json.decoder
import math
import re

FIXED = ("tmr", "gbl", "pwr", "slp", "rtc")
MOST_BYTES, MOST_WEIGHT, MOST_NESTING = 4194304, 1048576, 127
ACTORS = re.compile(r"int|poll|ec|w[0-3]|[df][0-7]")
EVENT = re.compile(r"tmr|gbl|pwr|slp|rtc|g[0-9A-F]{2}")
HANDLER = re.compile(r"tmr|pwr|slp|rtc|_[LE][0-9A-F]{2}")
QUERY = re.compile(r"_Q(?!00)[0-9A-F]{2}")


class Refused(Exception):
    """A description that is refused: the answer of the program, the path of the place, and what was expected there."""

    def __init__(self, answer, path=None, wanted=""):
        super().__init__(answer)
        self.answer, self.path, self.wanted = answer, path, wanted


# ---- the form of values: a function takes a value and its path, and raises Refused at the first that is wrong


def bad(path, wanted):
    raise Refused("BadShape " + ".".join(map(str, path)), path, wanted)


def number(most, least=0):
    def checked(value, path):
        if type(value) is not int or not least <= value <= most:
            bad(path, "a whole number from %d to %d, without quotes, a fraction or an exponent" % (least, most))
    return checked


def truth(value, path):
    if value is not True and value is not False:
        bad(path, "true or false, without quotes")


def one_of(*texts):
    def checked(value, path):
        if value not in texts or type(value) is not str:
            bad(path, " or ".join('"%s"' % it for it in texts))
    return checked


def named(pattern, wanted):
    def checked(value, path):
        if type(value) is not str or not pattern.fullmatch(value):
            bad(path, wanted)
    return checked


def exactly(*members):
    names = [name for name, _ in members]

    def checked(value, path):
        if type(value) is not dict or set(value) != set(names):
            bad(path, "an object with exactly the name%s %s%s" % ("" if len(names) == 1 else "s", ", ".join(names), difference(value, names)))
        for name, form in members:
            form(value[name], path + [name])
    return checked


def difference(value, names):
    """Which names are missing or too many."""
    if type(value) is not dict:
        return ""
    missing, more = [it for it in names if it not in value], [it for it in value if it not in names]
    told = ["missing: " + ", ".join(missing)] * bool(missing) + ["too many: " + ", ".join(more)] * bool(more)
    return " (%s)" % "; ".join(told) if told else ""


def each(form, what):
    def checked(value, path):
        if type(value) is not list:
            bad(path, "an array of " + what)
        for place, it in enumerate(value):
            form(it, path + [place])
    return checked


FIELD_PLACE, COUNT, VALUE, BYTE, CODE = number(65535), number(65535), number(2**64 - 1), number(255), number(255, 1)
EVENT_NAME = named(EVENT, 'an event: "tmr", "gbl", "pwr", "slp", "rtc", or g and two upper-case hexadecimal digits, as "g1D"')
OPERATIONS = {
    "read": (FIELD_PLACE,), "write": (FIELD_PLACE, VALUE), "add": (FIELD_PLACE, VALUE), "skip": (VALUE, COUNT), "hold": (), "free": (),
    "notify": (BYTE, BYTE), "drop": (EVENT_NAME,), "up": (EVENT_NAME,), "down": (EVENT_NAME,), "raise": (EVENT_NAME,),
    "assert": (EVENT_NAME,), "push": (CODE,),
}
SHAPES = {
    "read": '["read", f]', "write": '["write", f, v]', "add": '["add", f, v]', "skip": '["skip", v, k]', "hold": '["hold"]', "free": '["free"]',
    "notify": '["notify", d, v] with two bytes', "drop": '["drop", e]', "up": '["up", e]', "down": '["down", e]', "raise": '["raise", e]',
    "assert": '["assert", e]', "push": '["push", q] with q from 1 to 255',
}


def operation(value, path):
    name = value[0] if type(value) is list and value else None
    if type(name) is not str or name not in OPERATIONS:
        bad(path, "an operation, an array that begins with one of " + ", ".join(OPERATIONS))
    forms = OPERATIONS[name]
    if len(value) != len(forms) + 1:
        bad(path, "the operation %s, with %d operand%s" % (SHAPES[name], len(forms), "" if len(forms) == 1 else "s"))
    for form, it in zip(forms, value[1:]):
        try:
            form(it, path)
        except Refused as error:
            bad(path, "the operation %s; an operand is %s" % (SHAPES[name], error.wanted))


SCRIPT = each(operation, "operations")


QUERIES = each(exactly(("name", named(QUERY, "a query's name: _Q and two upper-case hexadecimal digits, from _Q01 to _QFF")), ("script", SCRIPT)),
               "objects with name and script")


def controller(version):
    """The form of a controller. In version 2 it says whether it needs the Global Lock."""
    glk = [("glk", truth)] if version == 2 else []
    members = [("event", EVENT_NAME), ("silent", truth), ("fickle", truth)] + glk + [("queries", QUERIES)]

    def checked(value, path):
        if value is None:
            return
        if type(value) is not dict:
            bad(path, "null, or an object with %s and queries" % ", ".join(name for name, _ in members[:-1]))
        exactly(*members)(value, path)
    return checked


FORMS = {version: exactly(
    ("version", number(2, 1)),
    ("gpe", exactly(("gpe0", number(65535)), ("base1", number(65535)), ("gpe1", number(65535)))),
    ("workers", number(255)),
    ("regions", each(exactly(("kind", one_of("memory", "controller")), ("len", number(65535)), ("bytes", each(BYTE, "bytes"))), "regions")),
    ("fields", each(exactly(("region", number(255)), ("bit", number(2**32 - 1)), ("width", number(255)), ("lock", truth),
                            ("update", one_of("preserve", "ones", "zeros"))), "fields")),
    ("events", each(exactly(("name", named(HANDLER, 'a handler\'s name: _L or _E and two upper-case hexadecimal digits, or "tmr", "pwr", '
                                           '"slp" or "rtc"')), ("refs", number(65535)), ("script", SCRIPT)), "events")),
    ("controller", controller(version)),
    ("firmware", each(SCRIPT, "scripts, each an array of operations")),
    ("devices", each(each(EVENT_NAME, "events"), "arrays of events")),
    ("schedule", each(named(ACTORS, 'an actor: "int", "poll", "ec", w0 to w3, d0 to d7 or f0 to f7'), "actors")),
) for version in (1, 2)}


def whole_form(value, path):
    """The form of a description, by its version; of a version that there is not, that of version 1, whose first fault it is."""
    version = value.get("version") if type(value) is dict else None
    FORMS[2 if type(version) is int and version == 2 else 1](value, path)


def needs_lock(machine):
    """Whether there is a controller that needs the Global Lock: in version 1 each does."""
    return bool(machine["controller"]) and (machine["version"] == 1 or machine["controller"]["glk"])

# ---- the rules between parts


def event_of(name):
    """The event of a handler's name, and whether it is level-triggered."""
    return ("g" + name[2:], name[1] == "L") if name.startswith("_") else (name, False)


class Rules:
    """What the rules ask of a description that has the right form."""

    def __init__(self, machine):
        self.machine = machine
        gpe, own = machine["gpe"], machine["controller"]
        self.numbers = set(range(4 * gpe["gpe0"])) | set(range(gpe["base1"], gpe["base1"] + 4 * gpe["gpe1"]))
        self.own = own["event"] if own else None
        self.listed = {}
        for event in machine["events"]:
            name, level = event_of(event["name"])
            self.listed.setdefault(name, level)

    def knows(self, event):
        return event in self.listed or event == "gbl" or event == self.own

    def exists(self, event):
        return event in FIXED or int(event[1:], 16) in self.numbers

    def faults(self):
        """Each rule that is broken, in the order in which they are tested: rule, part, index, operation, and what was expected."""
        m = self.machine
        g0, base, g1 = m["gpe"]["gpe0"], m["gpe"]["base1"], m["gpe"]["gpe1"]
        for length in (g0, g1):
            if length % 2 or length > 64:
                yield "BadGeometry", "Gpe", 0, 0, "a block's length is even and at most 64"
        if g1 and (base < 4 * g0 or base + 4 * g1 > 256):
            yield "BadGeometry", "Gpe", 0, 0, "the second block begins after the first one's last event, and ends at event 255 at most"
        if m["version"] == 1 and (4 * g0 > 128 or g1 and base + 4 * g1 > 128):
            yield "TooManyEvents", "Gpe", 0, 0, "no event is above 127 in version 1: a block of 32 bytes from event 0 on has them all"
        if not 1 <= m["workers"] <= 4:
            yield "BadWorkers", "Workers", 0, 0, "1 to 4 workers"
        yield from self.regions()
        yield from self.fields()
        yield from self.events()
        if self.own is not None:
            if self.own in FIXED or not self.exists(self.own):
                yield "UnknownEvent", "Controller", 0, 0, "the controller's event is a GPE of a block"
            yield from self.queries()
        yield from self.actors()

    def many(self, items, most, part):
        if len(items) > most:
            yield "TooMany", part, 0, 0, "at most %d items" % most

    def regions(self):
        yield from self.many(self.machine["regions"], 16, "Region")
        before = False
        for k, it in enumerate(self.machine["regions"]):
            is_own = it["kind"] == "controller"
            if not it["len"] or (it["len"] != 256 if is_own else it["len"] > 4096):
                yield "BadRegion", "Region", k, 0, "a region of memory has 1 to 4096 cells, that of the controller 256"
            elif len(it["bytes"]) > it["len"]:
                yield "BadRegion", "Region", k, 0, "no more bytes than the %d cells" % it["len"]
            elif is_own and (before or self.own is None):
                yield "BadRegion", "Region", k, 0, "one region of the controller, and only where there is a controller"
            before = before or is_own

    def fields(self):
        regions = self.machine["regions"]
        yield from self.many(self.machine["fields"], 256, "Field")
        for k, it in enumerate(self.machine["fields"]):
            if it["region"] >= len(regions):
                yield "UnknownRegion", "Field", k, 0, "the place of a region, from 0; there are %d" % len(regions)
            elif not 1 <= it["width"] <= 64:
                yield "BadWidth", "Field", k, 0, "a width of 1 to 64 bits"
            elif it["bit"] + it["width"] > 8 * regions[it["region"]]["len"]:
                yield "OutsideRegion", "Field", k, 0, "bits 0 to %d, those of its region" % (8 * regions[it["region"]]["len"] - 1)

    def events(self):
        yield from self.many(self.machine["events"], 132 if self.machine["version"] == 1 else 260, "Event")
        before = set()
        for k, it in enumerate(self.machine["events"]):
            event, _ = event_of(it["name"])
            if not self.exists(event):
                yield "UnknownEvent", "Event", k, 0, "a GPE of a block; a block of n bytes has 4n events"
            if event in before or event == self.own:
                yield "TakenEvent", "Event", k, 0, "an event that is listed once, and is not the controller's"
            if it["refs"] > 255:
                yield "BadRefs", "Event", k, 0, "0 to 255 references"
            yield from self.script(it["script"], "Event", k, ("raise", "assert", "push"))
            before.add(event)

    def queries(self):
        queries = self.machine["controller"]["queries"]
        yield from self.many(queries, 255, "Query")
        before = set()
        for k, it in enumerate(queries):
            if it["name"] in before:
                yield "TakenCode", "Query", k, 0, "a code that has no handler yet"
            yield from self.script(it["script"], "Query", k, ("raise", "assert", "push"))
            before.add(it["name"])

    def actors(self):
        m = self.machine
        yield from self.many(m["firmware"], 8, "Firmware")
        for k, it in enumerate(m["firmware"]):
            yield from self.script(it, "Firmware", k, ("notify", "up", "down"))
        yield from self.many(m["devices"], 8, "Device")
        for k, pulses in enumerate(m["devices"]):
            if len(pulses) > 4096:
                yield "LongList", "Device", k, 0, "at most 4096 pulses"
            for place, event in enumerate(pulses):
                if not self.knows(event):
                    yield "UnknownEvent", "Device", k, place, "an event that `events` lists, gbl, or the controller's"
        yield from self.many(m["schedule"], 65536, "Schedule")
        known = set(actors_of(m))
        for k, actor in enumerate(m["schedule"]):
            if actor not in known:
                yield "UnknownActor", "Schedule", k, 0, "an actor of the machine: " + ", ".join(actors_of(m))

    def script(self, ops, part, k, forbidden):
        if len(ops) > 4096:
            yield "LongScript", part, k, 4096, "at most 4096 operations"
        opened = None
        for place, op in enumerate(ops):
            name = op[0]
            why = self.not_allowed(op, forbidden)
            if why:
                yield "NotAllowed", part, k, place, why
            if name in ("read", "write", "add") and op[1] >= len(self.machine["fields"]):
                yield "UnknownField", part, k, place, "the place of a field, from 0; there are %d" % len(self.machine["fields"])
            if name == "skip":
                over = ops[place + 1:place + 1 + op[2]]
                if not op[2] or len(over) < op[2] or any(it[0] in ("hold", "free") for it in over):
                    yield "BadSkip", part, k, place, "one operation or more that follow, and no hold or free among them"
            if name == "hold":
                if opened is not None:
                    yield "Unbalanced", part, k, place, "no hold under a hold"
                opened = place
            if name == "free":
                if opened is None:
                    yield "Unbalanced", part, k, place, "a hold before it"
                opened = None
        if opened is not None:
            yield "Unbalanced", part, k, opened, "a free after this hold"

    def not_allowed(self, op, forbidden):
        name = op[0]
        if name in forbidden:
            return "no %s: that is an operation of the %s" % (name, "firmware" if "push" in forbidden else "OS")
        if name == "raise" and not self.knows(op[1]):
            return "an event that `events` lists, gbl, or the controller's"
        if name in ("up", "down") and op[1] not in self.listed:
            return "an event that `events` lists"
        if name in ("assert", "drop") and not self.listed.get(op[1]):
            return "an event that `events` lists as level-triggered (_L%s)" % op[1][1:]
        return "no push: there is no controller" if name == "push" and self.own is None else None


def actors_of(machine):
    names = ["int", "poll"] + ["w%d" % k for k in range(machine["workers"])]
    names += ["ec"] if machine["controller"] else []
    names += ["d%d" % k for k in range(len(machine["devices"]))]
    return names + ["f%d" % k for k in range(len(machine["firmware"]))]


PARTS = {"Gpe": ["gpe"], "Workers": ["workers"], "Region": ["regions"], "Field": ["fields"], "Event": ["events"], "Controller": ["controller"],
         "Query": ["controller", "queries"], "Firmware": ["firmware"], "Device": ["devices"], "Schedule": ["schedule"]}
SCRIPTED = {"LongScript", "NotAllowed", "UnknownField", "BadSkip", "Unbalanced"}


def path_of(rule, part, index, place):
    """The path of the value that an answer of BadMachine means."""
    path = list(PARTS[part])
    if part in ("Gpe", "Workers") or rule == "TooMany":
        return path
    if part == "Controller":
        return path + ["event"]
    path.append(index)
    if rule in SCRIPTED:
        path += [] if part == "Firmware" else ["script"]
        return path if rule == "LongScript" else path + [place]
    return path + [place] if part == "Device" and rule == "UnknownEvent" else path


# ---- the weight


def weight(machine):
    """The weight of docs/formats.md: no history of the machine is longer."""
    fields, regions, own = machine["fields"], machine["regions"], machine["controller"]

    def size(ops):
        entries = moves = 0
        held = False
        for op in ops:
            name = op[0]
            held = name == "hold" or held and name != "free"
            if name == "hold":
                entries += 8
            if name not in ("read", "write", "add"):
                entries += name not in ("skip", "free", "hold")
                continue
            field = fields[op[1]]
            first, last = field["bit"], field["bit"] + field["width"]
            count = (last - 1) // 8 - first // 8 + 1
            parts = sum(8 * (first // 8 + k) < first or last < 8 * (first // 8 + k) + 8 for k in range(count))
            reads = count * (name != "write") + (parts if name != "read" and field["update"] == "preserve" else 0)
            writes = count * (name != "read")
            inside = regions[field["region"]]["kind"] == "controller"
            entries += 7 * reads + 8 * writes + 10 * (count > 1) if inside else reads + writes
            moves += 2 * reads + 3 * writes + 2 * (count > 1) if inside else 0
            entries += 8 if (field["lock"] or inside and needs_lock(machine)) and not held else 0
        return entries, moves

    scripts = [size(it) for it in machine["firmware"]]
    raised = [op[1] for script in machine["firmware"] for op in script if op[0] == "raise"]
    asserted = [op[1] for script in machine["firmware"] for op in script if op[0] == "assert"]
    pushed = [op[1] for script in machine["firmware"] for op in script if op[0] == "push"]
    pulses = [event for device in machine["devices"] for event in device]
    total, moves = sum(it[0] for it in scripts) + len(pulses), sum(it[1] for it in scripts)
    for it in machine["events"]:
        event, _ = event_of(it["name"])
        runs = raised.count(event) + pulses.count(event) + 17 * asserted.count(event)
        entries, its_moves = size(it["script"])
        total, moves = total + runs * (3 + entries), moves + runs * its_moves
    codes = {int(it["name"][2:], 16): size(it["script"]) for it in own["queries"]} if own else {}
    for code in pushed:
        entries, its_moves = codes.get(code, (0, 0))
        total, moves = total + 2 + entries, moves + its_moves
    calls = raised.count(own["event"]) + pulses.count(own["event"]) if own else 0
    asked = 2 * len(pushed) + calls + moves if pushed else 0
    total += 15 * asked + 3 * (raised.count("gbl") + pulses.count("gbl"))
    return total + (len(pushed) + calls + moves + asked if own else 0)


# ---- reading


def whole(text):
    return float("nan") if text == "-0" else int(text)


def real(text):
    value = float(text)
    if math.isinf(value):
        raise ValueError("no number")
    return value


def no_constant(text):
    raise ValueError(text)


def parsed(data):
    """The value of bytes or a text, as the program's reader takes it; Refused where that is none."""
    if len(data) > MOST_BYTES:
        raise Refused("TooLarge", None, "at most %d bytes" % MOST_BYTES)
    try:
        text = data.decode("utf-8") if isinstance(data, bytes) else data
        value = json.loads(text, parse_int=whole, parse_float=real, parse_constant=no_constant)
        text.encode("utf-8")
        if depth(text) > MOST_NESTING:
            raise ValueError("nesting")
        if "\\u" in text:
            json.dumps(value, ensure_ascii=False).encode("utf-8")
    except RecursionError:
        raise Refused("NotJson", None, "nesting to %d" % MOST_NESTING) from None
    except json.JSONDecodeError as error:
        raise Refused("NotJson", None, "JSON: %s at line %d, column %d" % (error.msg, error.lineno, error.colno)) from None
    except ValueError as error:
        raise Refused("NotJson", None, "JSON: " + str(error)) from None
    return value


def depth(text):
    """How deep arrays and objects stand in each other."""
    most = now = 0
    for mark in re.finditer(r'"(?:[^"\\]|\\.)*"|[\[{]|[\]}]', text):
        if mark[0] in "[{":
            now += 1
            most = max(most, now)
        elif mark[0] in "]}":
            now -= 1
    return most


def check(value):
    """Raises Refused at the first fault of a value: its form, its rules, its weight."""
    whole_form(value, [])
    for rule, part, index, place, wanted in Rules(value).faults():
        raise Refused("BadMachine %s %s %d %d" % (rule, part, index, place), path_of(rule, part, index, place), wanted)
    heavy = weight(value)
    if heavy > MOST_WEIGHT:
        raise Refused("TooLong %d" % heavy, [], "a weight of at most %d; the one of this machine is %d" % (MOST_WEIGHT, heavy))


def read(data):
    """The description that bytes or a text have."""
    value = parsed(data)
    check(value)
    return value


def canonical(machine):
    """The one text of a machine: names in the order of their bytes, no blanks, no zeros at the end of bytes."""
    regions = []
    for region in machine["regions"]:
        end = len(region["bytes"])
        while end and region["bytes"][end - 1] == 0:
            end -= 1
        regions.append(dict(region, bytes=region["bytes"][:end]))
    return json.dumps(dict(machine, regions=regions), separators=(",", ":"), sort_keys=True)


def laid_out(machine):
    """The text of a description: a line for each item of a part."""
    parts = []
    for name, value in machine.items():
        if isinstance(value, list) and value:
            text = "[\n    " + ",\n    ".join(map(json.dumps, value)) + "\n  ]" if name != "schedule" else json.dumps(value)
        elif name == "controller" and value:
            queries = ",\n      ".join(map(json.dumps, value["queries"]))
            plain = json.dumps({key: its for key, its in value.items() if key != "queries"})[1:-1]
            text = "{\n    %s,\n    \"queries\": %s\n  }" % (plain, "[\n      %s\n    ]" % queries if queries else "[]")
        else:
            text = json.dumps(value)
        parts.append("  %s: %s" % (json.dumps(name), text))
    return "{\n" + ",\n".join(parts) + "\n}\n"


# ---- places in the text

BLANKS = re.compile(r"[ \t\n\r]*")
PLAIN = re.compile(r"[^\s,\]}\"\[{:]+")


class Places:
    """Where each value of a JSON text begins: an offset for each path. Of a name that stands twice the last counts."""

    def __init__(self, text):
        self.text, self.found = text, {}
        self.value(BLANKS.match(text).end(), ())

    def after(self, at):
        return BLANKS.match(self.text, at).end()

    def value(self, at, path):
        self.found[path] = at
        mark = self.text[at]
        if mark == '"':
            return json.decoder.scanstring(self.text, at + 1)[1]
        if mark not in "[{":
            return PLAIN.match(self.text, at).end()
        at, place, close = self.after(at + 1), 0, "]" if mark == "[" else "}"
        while self.text[at] != close:
            step = place
            if mark == "{":
                step, at = json.decoder.scanstring(self.text, at + 1)
                at = self.after(self.after(at) + 1)
            at, place = self.after(self.value(at, path + (step,))), place + 1
            if self.text[at] == ",":
                at = self.after(at + 1)
        return at + 1


def place_of(text, path):
    """The line and the column, from 1, at which the value of a path begins in a JSON text."""
    at = Places(text).found.get(tuple(path), 0)
    return text.count("\n", 0, at) + 1, at - (text.rfind("\n", 0, at) + 1) + 1


def steps_of(path):
    """The steps of a path as the program writes it."""
    return [int(it) if it.isdecimal() else it for it in path.split(".")] if path else []
