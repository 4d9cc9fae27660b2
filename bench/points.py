"""A machine of its own, for `bench/show`: which wires carry an impulse at each point of the cycles that print.

It is written from docs/MACHINE.md alone, and reads the panel off the lines of a wiring chart. Nothing of the program is asked.
"""
import re

POINTS = ("C", 9, 8, 7, 6, 5, 4, 3, 2, 1, 0, 11, 12, "K")
ROWS = POINTS[1:-1]
GROUPS = [f"{width}.{number}" for width in (3, 4, 6, 8) for number in range(1, 9)]


class Group:
    """A counter group: wheel 1, the units, stands first."""

    def __init__(self, name):
        self.name, self.wheels, self.latch = name, [0] * int(name[0]), False
        self.begin()

    def begin(self):
        self.asked, self.digits, self.carry = set(), [0] * len(self.wheels), False

    def turn(self):
        """The wheels behind their own advances, and which of them passed from 9 to 0."""
        before = [0] * len(self.wheels) if "RO" in self.asked else self.wheels
        minus, plus = "MI" in self.asked, "PL" in self.asked
        advances = [9 - digit if minus else digit if plus else 0 for digit in self.digits]
        sums = [wheel + advance for wheel, advance in zip(before, advances)]
        return [each % 10 for each in sums], [each > 9 for each in sums]

    def sends_carry(self):
        wheels, passed = self.turn()
        return any(passed[at] and all(each == 9 for each in wheels[at + 1:]) for at in range(len(wheels)))

    def leads_on(self):
        return all(each == 9 for each in self.turn()[0])

    def end(self):
        wheels, passed = self.turn()
        steps = [self.carry and all(each == 9 for each in wheels[:at])
                 or any(passed[low] and all(each == 9 for each in wheels[low + 1:at]) for low in range(at)) for at in range(len(wheels))]
        self.wheels = [(wheel + step) % 10 for wheel, step in zip(wheels, steps)]
        if "BT" in self.asked:
            self.latch = self.wheels[-1] == 9
        self.begin()


class Machine:
    """A panel with a deck, as sets of rows for each column. `run` gives for each line that is printed its place and what was live."""

    def __init__(self, wires, chart, cards):
        self.cards, self.next = cards, {}
        for wire in wires:
            self.next.setdefault(wire[0], []).append(wire[1])
        self.jacks = set(re.findall(r"(?m)^ *JACK +((?:LIST|TOTAL +\d|HEAD +\d))", chart))
        self.jacks = {" ".join(jack.split()) for jack in self.jacks}
        self.long, self.first, self.over = map(int, re.search(r"(?m)^ *FORM +(\d+) +(\d+) +(\d+)", chart).groups())
        self.stops = {(int(line), int(channel)) for channel, line in re.findall(r"(?m)^ *STOP +(\d+) +(\d+)", chart)}
        self.stops |= {(self.first, 1), (self.over, 12)}
        self.groups = [Group(name) for name in GROUPS]
        self.pilots, self.first_of_group = set(), {1, 2, 3}
        self.storage = {unit: {} for unit in range(1, 5)}
        self.page, self.line, self.restores = 0, 0, True

    def prints(self, cycle):
        return {"card": "LIST", "head": f"HEAD {cycle[1]}", "prog": f"TOTAL {cycle[1]}" if cycle[2] == 3 else ""}.get(cycle[0]) in self.jacks

    def exits_of(self, cycle, point, stations):
        """The exits that the units impulse at a point, by themselves."""
        kind, number, ordinal = cycle
        if point == "C":
            yield {"card": "CC", "prog": f"PX.{number}.{ordinal}", "head": f"HX.{number}"}.get(kind)
        if point in ROWS:
            for name, card in stations.items():
                yield from (f"{name}.{column}" for column, rows in enumerate(card or (), 1) if point in rows)
            emitter = {"head": number, "card": 4, "prog": 4 + number if ordinal == 3 else None}.get(kind)
            yield emitter and f"EM.{emitter}.{point}"
            for group in self.groups:
                if "RO" in group.asked:
                    yield from (f"GX.{group.name}.{at}" for at, wheel in enumerate(group.wheels, 1) if wheel == point)
            for unit in self.sent:
                yield from (f"SX.{unit}.{column}" for column, rows in self.storage[unit].items() if point in rows)
        if point == "K":
            if kind == "card":
                yield from (f"CX.{at}" for at in range(1, 31) if self.compared["CA", at] != self.compared["CB", at])
            yield from (f"CO.{group.name}" for group in self.groups if group.sends_carry())

    def contact(self, hub, cycle, point):
        """The hub behind a closed contact, if what comes to this hub is passed on."""
        kind, *numbers = hub.split(".")
        tail = "." + ".".join(numbers)
        if kind == "PIC":
            return ("PIT" if int(numbers[0]) in self.pilots else "PIN") + tail
        if kind == "BAC":
            latch = next(group.latch for group in self.groups if group.name == ".".join(numbers[:2]))
            return ("BAT" if latch else "BAN") + tail
        if kind == "IE":
            return "IX" + tail if cycle[0] == "card" and int(numbers[0]) in self.first_of_group else None
        if kind == "CSE" and point in ROWS:
            return ("CSZ" if point in (11, 12) else "CSD") + tail
        if kind == "CI" and point == "K":
            return "CO" + tail if next(group for group in self.groups if group.name == tail[1:]).leads_on() else None
        return None

    def picture(self, cycle, point, stations):
        """All hubs that are impulsed at a point."""
        found, left = set(), [hub for hub in self.exits_of(cycle, point, stations) if hub]
        while left:
            hub = left.pop()
            if hub not in found:
                found.add(hub)
                left += self.next.get(hub, [])
                behind = self.contact(hub, cycle, point)
                left += [behind] if behind else []
        return found

    def sense(self, cycle, point, hubs):
        if point == "C":
            for group in self.groups:
                group.asked = {kind for kind in ("PL", "MI", "RO", "BT") if f"{kind}.{group.name}" in hubs}
            self.taken, self.sent = ({unit for unit in range(1, 5) if f"{kind}.{unit}" in hubs} for kind in ("SI", "SO"))
            self.spaces = 3 if "SP.3" in hubs else 2 if "SP.2" in hubs else 1
            self.skips = next((channel for channel in range(1, 13) if f"SK.{channel}" in hubs), None)
            self.asks = "RS" in hubs
        if point in ROWS:
            for group in self.groups:
                for at, digit in enumerate(group.digits):
                    if point in range(1, 10) and digit == 0 and f"GE.{group.name}.{at + 1}" in hubs:
                        group.digits[at] = point
            for side, at in self.compared:
                if f"{side}.{at}" in hubs:
                    self.compared[side, at].add(point)
            for unit in self.taken:
                for column in range(1, 17):
                    if f"SE.{unit}.{column}" in hubs:
                        self.received.setdefault(unit, {}).setdefault(column, set()).add(point)
            if point == 11:
                self.picked = {pilot for pilot in range(1, 17) if f"PIX.{pilot}" in hubs}
        if point == "K":
            for group in self.groups:
                group.carry = f"CI.{group.name}" in hubs
            self.called = max((level for level in (1, 2, 3) if f"ST.{level}" in hubs), default=0)

    def advance(self):
        """One line down. Whether the overflow line was met."""
        self.line += 1
        if self.line > self.long:
            self.page, self.line = self.page + 1, 1
        if self.line == self.over:
            self.restores = True

    def move_form(self, cycle):
        """The form at the end of a cycle; the place of the line that is printed, or None."""
        place = None
        if cycle[:2] == ("head", 1):
            self.page, self.line, self.restores = self.page + 1, self.first, False
        elif self.prints(cycle):
            for _ in range(self.spaces):
                self.advance()
        if self.prints(cycle):
            place = (self.page, self.line)
        if self.skips:
            below = [line for line, channel in self.stops if channel == self.skips and line > self.line]
            while below and self.line < min(below):
                self.advance()
            self.restores |= not below
        self.restores |= self.asks
        return place

    def cycle(self, cycle, stations=()):
        """Runs a cycle, and gives the place of its line and the pictures of its points."""
        self.compared = {(side, at): set() for side in ("CA", "CB") for at in range(1, 31)}
        self.received, self.taken, self.sent, self.picked = {}, set(), set(), set()
        pictures = []
        for point in POINTS:
            pictures.append(self.picture(cycle, point, dict(stations)))
            self.sense(cycle, point, pictures[-1])
        for group in self.groups:
            group.end()
        for unit in self.taken:
            self.storage[unit] = self.received.get(unit, {})
        if cycle[0] in ("card", "run-in"):
            self.pilots = self.picked
        if cycle[0] == "card":
            self.first_of_group = set()
        if cycle[0] == "prog" and cycle[2] == 3 and cycle[1] < 4:
            self.first_of_group.add(cycle[1])
        return self.move_form(cycle), pictures

    def due(self, cycle, stations=()):
        """The heading cycles that come first, and the cycle."""
        if self.restores and self.prints(cycle):
            for heading in (1, 2, 3):
                yield self.cycle(("head", heading, 0))
        yield self.cycle(cycle, stations)

    def all_cycles(self):
        if self.cards:
            yield self.cycle(("run-in", 0, 0), {"FR": self.cards[0]}.items())
        for at, card in enumerate(self.cards):
            follows = self.cards[at + 1] if at + 1 < len(self.cards) else None
            yield from self.due(("card", 0, 0), {"SR": card, "FR": follows}.items())
            for level in range(1, (self.called if follows is not None else 4) + 1):
                for ordinal in (1, 2, 3):
                    yield from self.due(("prog", level, ordinal))

    def lines(self):
        """For each printed line its place and the pictures of the fourteen points of its cycle, in the order of the run."""
        return [(place, pictures) for place, pictures in self.all_cycles() if place]
