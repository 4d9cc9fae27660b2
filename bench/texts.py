"""Texts for the built program, with what it answers on them: worked inputs, and hostile texts with their answers by rule.

An input is a dict: its texts, `chart`, `wiring`, `orders`, `deck`, and `both`, a chart and its deck on standard input; what commands
print of them, `ok`, `wiring`, `pages`, `upgraded`, as far as that is known; `counted`, what a replay by the orders tells of rounds and
hubs; and `refused`, of a text that is refused the fault lines that are right. A text is bytes, or pieces of bytes, or the path of a
device. `room` is the address space that the program has, in bytes; `about`, that only commands on this text are meant.
"""
import os
import re
from itertools import chain, product

TOP = os.path.dirname(os.path.dirname(os.path.realpath(__file__)))
CASES = f"{TOP}/crates/cases/data"


def text(path):
    with open(path, "rb") as file:
        return file.read()


def pages(length, *lines):
    """Pages of a length, each given as a dict of its lines by their numbers."""
    return b"".join(b"".join(page.get(number, b"") + b"\n" for number in range(1, length + 1)) + b"\f" for page in lines)


def listing(cards):
    """The pages of the bolts listing: columns 1 to 6 and 8 to 10 on wheels 1 and 9, from line 2 of a page to line 9."""
    lines = [(card[:6].ljust(6) + b"  " + card[7:10]).rstrip() for card in cards]
    return pages(12, *(dict(enumerate(lines[first:first + 8], 2)) for first in range(0, len(lines), 8)))


BOLTS = text(f"{TOP}/examples/bolts.chart")
BOLTS_DECK, BOLTS_PAGES = text(f"{TOP}/examples/bolts.deck"), pages(12, {2: b"BOLT    A01", 3: b"NUT     B22", 4: b"WASHER  C30"})
BOLTS_WIRING = b"WIRING407 1\nFORM 12 1 9\nJACK LIST\n" + b"".join(
    b"WIRE SR.%d W.%d\n" % each for each in [(1, 1), (2, 2), (3, 3), (4, 4), (5, 5), (6, 6), (8, 9), (9, 10), (10, 11)]) + b"END\n"
LEVELS = text(f"{CASES}/reports/three-levels-and-a-grand-total.chart")
LEVELS_DECK = text(f"{CASES}/reports/three-levels-and-a-grand-total.deck")
LEVELS_PAGES = pages(30, {2: b"A 10", 3: b"   2", 4: b"  12   MIN", 5: b"  12   INT", 6: b"  12   MAJ", 7: b"B  7", 8: b"   7   MIN",
                          9: b"   7   INT", 10: b"   7   MAJ", 11: b"  19   ALL"})
ONE_TOTAL, ONE_TOTAL_DECK = text(f"{CASES}/panels/one_total.wiring"), b"005\n"
ONE_TOTAL_PAGES = pages(12, {2: b"   5"})
UP, DOWN = (b" ".join(b"%d" % unit for unit in units) + b"\n" for units in (range(1, 46), range(45, 0, -1)))
# What is counted on the panel of one total, made outside of this repository; by one order many times it is what it is by that order once.
ONE_TOTAL_COUNTS = {(UP,): b"rounds 34 seen 937\n", (DOWN,): b"rounds 51 seen 4981\n", (UP, DOWN): b"rounds 35 seen 5107\n"}
PILOT_LOOP = text(f"{CASES}/panels/hand_wiring_with_a_pilot_loop.wiring")
PILOT_LOOP_DECK = text(f"{CASES}/panels/hand_wiring_with_a_pilot_loop.deck")
CLASH = b"CHART407 1\nFIELD NAME TEXT 1 5\nFIELD AMT AMOUNT 6 12 0\nPRINT DETAIL\nDETAIL 40 NAME\nTOTAL 4 42 AMT 8\nFORM 12 1 9\nEND\n"


def with_deck(chart, deck, report, *refused):
    """A chart and a deck, also on standard input, with the report, or the faults of the deck."""
    return {"chart": chart, "deck": deck, "both": chart + deck, "pages": report, "refused": {"deck": refused, "both": refused}}


def by_orders(orders):
    """The panel of one total, its card and orders."""
    lines = tuple(b" ".join(filter(None, line.split(b" "))) + b"\n" for line in lines_of(orders))
    known = {"wiring": ONE_TOTAL, "orders": orders, "deck": ONE_TOTAL_DECK, "pages": ONE_TOTAL_PAGES, "about": "orders",
             "refused": {"orders": told(orders_fault(orders))}}
    counted = ONE_TOTAL_COUNTS.get(lines[:1] if len(set(lines)) == 1 else lines)
    return {**known, "counted": counted} if counted else known


def served_case(name):
    """A panel with orders and a deck; its pages and what is counted were made outside of this repository."""
    answers = text(f"{TOP}/crates/cases/stdout").split(b"== served\n")[1]
    printed, counted = re.search(rb"(?:^|\n)%s\n(.*?)(rounds \d+ seen \d+\n)" % name.encode(), answers, re.DOTALL).groups()
    return {**{each: text(f"{CASES}/served/{name}.{each}") for each in ("wiring", "orders", "deck")}, "pages": printed, "counted": counted,
            "about": "orders", "refused": {}}


def in_version_2(wiring):
    """A wiring chart of version 1, as the program writes it, in version 2: its rings stand as such before its wires."""
    ring = re.compile(rb"WIRE CO\.(\S+) CI\.\1$")
    lines = wiring.splitlines()[1:]
    rings = [ring.sub(rb"RING \1", line) for line in lines if ring.match(line)]
    others = [line for line in lines if not ring.match(line)]
    first = next(at for at, line in enumerate(others) if line.startswith((b"WIRE", b"END")))
    return b"\n".join([b"WIRING407 2", *others[:first], *rings, *others[first:], b""])


def worked_inputs():
    signed, past = (f"{CASES}/reports/{name}" for name in ("signed-detail-and-total", "total-past-the-digits"))
    bolt = b"BOLT   A01\n"
    yield with_deck(text(signed + ".chart"), text(signed + ".deck"), pages(20, {2: b" 100", 3: b" 250CR", 4: b"  30", 5: b" 120CR"}))
    yield with_deck(LEVELS, LEVELS_DECK, LEVELS_PAGES)
    yield with_deck(BOLTS, bolt * 40, listing([bolt] * 40))
    yield by_orders(UP)
    yield by_orders(UP + DOWN)
    yield served_case("013")
    # and texts that are refused: two items that meet, a wire that begins at an entry, orders whose second line is none, a card with
    # small letters, a total without room
    yield {"chart": CLASH, "deck": bolt, "both": CLASH + bolt, "refused": dict.fromkeys(["chart", "both"], ["34 line 6"])}
    yield {"wiring": ONE_TOTAL.replace(b"SR.1 GE.4.1.3", b"W.1 SR.1"), "orders": b"1 2 3\n", "deck": ONE_TOTAL_DECK,
           "refused": {"wiring": ["75 line 10 cause 51"], "orders": ["84 line 1"]}}
    yield {**by_orders(UP + b"1 2 3\n" + DOWN), "deck": b"x\n", "refused": {"orders": ["84 line 2"], "deck": ["2 card 1 column 1"]}}
    yield {**with_deck(BOLTS, bolt * 29 + b"bolt\n", listing([bolt] * 29), "2 card 30 column 1"), "wiring": BOLTS_WIRING, "orders": DOWN}
    yield with_deck(text(past + ".chart"), text(past + ".deck"), b"", "43 level 4 name AMT card 2")


# ---- What the rules say of a text: the line of its fault, or None. Charts are in docs/CHART.md, wiring charts in docs/WIRING.md.

NUMBER, NAME, LITERAL = "(0|[1-9][0-9]{0,2})", "[A-Z][A-Z0-9]{0,7}", r"'[A-Z0-9 &\-/.$*,%#@]{1,120}'"
KIND, MARK = "(DETAIL|TOTAL [1-4])", "( MARK (CR|-))?"
CHART_LINE = {f"CHART407 {version}": re.compile("|".join([
    f"FIELD {NAME} (TEXT {NUMBER} {NUMBER}|AMOUNT {NUMBER} {NUMBER} {NUMBER}( N?X {NUMBER})?)", f"CONTROL [1-3] {NAME}",
    "PRINT (DETAIL|GROUP)", f"HEAD [1-3] {NUMBER} {LITERAL}", f"DETAIL {NUMBER} ({LITERAL}|{NAME}( INDICATE [1-3]|{MARK}))",
    f"TOTAL [1-4] {NUMBER} ({LITERAL}|{NAME}( {NUMBER}{coupled}{MARK})?)", f"SPACE {KIND} [1-3]", f"AFTER {KIND} (PAGE|SKIP {NUMBER})",
    f"FORM {NUMBER} {NUMBER} {NUMBER}", f"TAPE {NUMBER}( {NUMBER}){{1,10}}"])) for version, coupled in [(1, ""), (2, "( COUPLED)?")]}
HUB = "(" + "|".join([
    "CC|RS", rf"(FR|SR|CX|CSD|CSZ|HX|CA|CB|PIX|SI|SO|CSE|W|ST|SP|SK)\.{NUMBER}",
    rf"(CO|PIN|PIT|SX|IX|EM|PX|PL|MI|RO|BT|CI|PIC|SE|IE)(\.{NUMBER}){{2}}", rf"(GX|BAN|BAT|GE|BAC)(\.{NUMBER}){{3}}"]) + ")"
WHEEL = "([1-9][0-9]?|1[01][0-9]|120)"
WIRING_LINE = re.compile("|".join([
    f"STOP ([2-9]|1[01]) {NUMBER}", f"JACK (LIST|TOTAL [1-4]|HEAD [1-3]|(LINK|SUPPRESS|SYMBOL) {WHEEL})", f"WIRE {HUB} {HUB}"]))
PRINTED = b"ABCDEFGHIJKLMNOPQRSTUVWXYZ0123456789 &-/.$*,%#@"


def lines_of(whole):
    """Cut at each line feed, one carriage return at the end of each piece dropped; an empty last piece is no line."""
    lines = [piece[:-1] if piece.endswith(b"\r") else piece for piece in whole.split(b"\n")]
    return lines if lines[-1] else lines[:-1]


def words_of(line):
    """A line with one space between its words, and none before and after them; a literal keeps its own."""
    parts = line.decode("latin-1").split("'")
    parts[::2] = [re.sub(" +", " ", part) for part in parts[::2]]
    return "'".join(parts).strip(" ")


def fault_of_lines(lines, first, form, no_line, no_end):
    """The fault of the lowest line that has none of the forms or stands after END, else that of a text without END."""
    ended = False
    for number, line in enumerate(lines, first):
        line = words_of(line) if line else ""
        if line and (ended or not (line == "END" or form.fullmatch(line))):
            return f"{no_line} line {number}"
        ended = ended or line == "END"
    return None if ended else no_end


def chart_fault(chart):
    """By the rules for the text; whoever gives a chart has to know that it breaks none of the other rules."""
    lines = lines_of(chart)
    if len(lines) > 500 or any(len(line) > 200 for line in lines):
        return "11"
    form = CHART_LINE.get(words_of(lines[0])) if lines else None
    return fault_of_lines(lines[1:], 2, form, "13", "14") if form else "12"


def wiring_fault(wiring):
    """By the rules for the text; no line may stand in it twice, have a hub that isn't there or wire a carry, so that it may be of either version."""
    lines = lines_of(wiring)
    if len(lines) > 1_000_000 or any(len(line) > 60 for line in lines):
        return "71"
    if len(lines) < 2 or words_of(lines[0]) not in ("WIRING407 1", "WIRING407 2") or not re.fullmatch(f"FORM {NUMBER} {NUMBER} {NUMBER}", words_of(lines[1])):
        return "72"
    return fault_of_lines(lines[2:], 3, WIRING_LINE, "73", "76")


def orders_fault(orders):
    """The lowest line that doesn't have the numbers 1 to 45, each once, divided by spaces; or that there is no line."""
    lines = lines_of(orders)
    for number, line in enumerate(lines, 1):
        if sorted(filter(None, line.split(b" "))) != sorted(UP.split()):
            return f"84 line {number}"
    return None if lines else "84"


CHANGED = re.compile(rb"[^A-Z0-9 &\-/.$*,%#@!]")  # what is on no card


def folded(whole):
    """What `fold` answers on a text: its status, what it tells, and the deck. See docs/DECKS.md."""
    changes = {"small letters made capitals": [], "tabs made blanks": [], "other bytes replaced": []}
    cards = []
    for number, line in enumerate(lines_of(whole), 1):
        card, behind = bytearray(), 0
        for found in CHANGED.finditer(line):
            card += line[behind:found.start()]
            behind = found.end()
            kind = "tabs made blanks" if found[0] == b"\t" else "small letters made capitals" if found[0].islower() else "other bytes replaced"
            changes[kind].append(f"line {number} column {behind}")
            card += b" " * (8 - len(card) % 8) if found[0] == b"\t" else found[0].upper() if found[0].islower() else b" "
        cards.append(card + line[behind:])
    too_long = [b"fault 1 card %d\n" % number for number, card in enumerate(cards, 1) if len(card) > 80]
    if too_long or len(cards) > 999_999:
        return 3, b"".join(too_long) or b"fault 3\n", b""
    told = "".join(f"{kind}: {len(places)}, first in {places[0]}\n" for kind, places in changes.items() if places)
    return 0, told.encode(), b"".join(card + b"\n" for card in cards)


def deck_fault(cards):
    for number, card in enumerate(cards, 1):
        if len(card) > 80:
            return f"1 card {number}"
        for column, byte in enumerate(card, 1):
            if byte not in PRINTED + b"!":
                return f"2 card {number} column {column}"
    return None


def bolts_fault(cards):
    """Of cards that are in a deck: `!` can't be printed."""
    for number, card in enumerate(cards, 1):
        for first, last in (1, 6), (8, 10):
            if b"!" in card[first - 1:last]:
                return f"41 card {number} column {first}"
    return None


# ---- Hostile texts: each is an input, whose answers are those of the rules

def told(line):
    return [line] if line else []


def as_chart(chart, deck=b"", report=b""):
    return {"chart": chart, "deck": deck, "pages": report, "refused": {"chart": told(chart_fault(chart))}}


def as_wiring(wiring, deck=ONE_TOTAL_DECK, report=ONE_TOTAL_PAGES):
    return {"wiring": wiring, "orders": DOWN, "deck": deck, "pages": report, "refused": {"wiring": told(wiring_fault(wiring))}}


def as_deck(deck):
    """A deck for the bolts listing, and for a panel that is wired for it, where `!` prints as a blank."""
    cards = lines_of(deck)
    yield {**with_deck(BOLTS, deck, listing(cards), *told(deck_fault(cards) or bolts_fault(cards))), "about": "deck"}
    yield {"wiring": BOLTS_WIRING, "orders": DOWN, "deck": deck, "pages": listing([card.replace(b"!", b" ") for card in cards]),
           "refused": {"deck": told(deck_fault(cards))}}


def cut_charts():
    for chart, deck, report in (LEVELS, LEVELS_DECK, LEVELS_PAGES), (BOLTS, BOLTS_DECK, BOLTS_PAGES):
        for length in range(len(chart) + 1):
            cut = chart[:length]
            yield as_chart(cut, deck, report)
            yield {"both": cut, "pages": b"", "refused": {"both": told(chart_fault(cut))}}


def cut_wirings():
    for length in range(len(PILOT_LOOP) + 1):
        yield as_wiring(PILOT_LOOP[:length], PILOT_LOOP_DECK, pages(12, {2: b"A", 3: b"K", 5: b"  990"}))
    for length in range(len(ONE_TOTAL) + 1):
        yield as_wiring(ONE_TOTAL[:length])


def cut_orders():
    whole = UP + DOWN
    return (by_orders(whole[:length]) for length in range(len(whole) + 1))


def cut_decks():
    deck = b"BOLT   A01\nNUT    B22\nWASHER C30\n" * 4
    return chain.from_iterable(as_deck(deck[:length]) for length in range(len(deck) + 1))


def each_byte_somewhere():
    """Each of the 256 bytes in some places of each text, and all 256 in a row."""
    for byte in chain((bytes([value]) for value in range(256)), [bytes(range(256))]):
        for chart in (BOLTS.replace(b"407 ", b"407" + byte), BOLTS.replace(b"PRINT", byte + b"\nPRINT"), BOLTS + byte,
                      BOLTS.replace(b"FORM", b"DETAIL 20 '" + byte + b"'\nFORM")):
            yield {"chart": chart, "refused": {"chart": told(chart_fault(chart))}}
        for wiring in (ONE_TOTAL.replace(b"407 ", b"407" + byte), ONE_TOTAL.replace(b"JACK TOTAL", byte + b"\nJACK TOTAL"),
                       ONE_TOTAL.replace(b"SR.1 GE", b"SR.1" + byte + b"GE"), ONE_TOTAL + byte):
            yield as_wiring(wiring)
        yield from map(by_orders, (byte + UP, UP.replace(b" ", byte, 1), UP.replace(b"45", b"4" + byte), UP + byte, UP[:-1] + byte, UP + byte + DOWN))
        yield from as_deck(byte + b"\n")


def some_bytes_everywhere():
    """NUL, TAB, CR and a byte above all characters, in every place of each text."""
    def put(whole):
        return (whole[:place] + byte + whole[place:] for byte in (b"\0", b"\t", b"\r", b"\xff") for place in range(len(whole) + 1))
    yield from (as_chart(chart, BOLTS_DECK, BOLTS_PAGES) for chart in put(BOLTS))
    yield from map(as_wiring, put(ONE_TOTAL))
    yield from map(by_orders, put(UP))
    yield from chain.from_iterable(map(as_deck, put(BOLTS_DECK)))


def sizes():
    """Texts that are just as large as may be, and those that are larger by one."""
    for end in b"\n", b"\r\n":
        for more in 0, 1:
            yield as_chart(BOLTS + end * (492 + more))
            yield as_chart(BOLTS.replace(b"END\n", b"END".ljust(200 + more) + end))
            yield as_chart(b"x" * (200 + more) + end)
            yield as_wiring(ONE_TOTAL.replace(b"END\n", b"END".ljust(60 + more) + end))
            yield as_wiring(ONE_TOTAL + end * (999_981 + more))
            yield by_orders(UP + end * more)
            yield by_orders(UP[:-1] + end)
            yield from as_deck(b"A" * (80 + more) + end)
            yield from as_deck(b"BOLT   A01" + end + b"A" * 79 + b"\xc8" + b"A" * more + end)


def in_one_line():
    """Ten million bytes without a line end, alone and after a good text."""
    line = b"A" * 10_000_000
    yield from map(as_chart, (line, BOLTS + line))
    yield from map(as_wiring, (line, ONE_TOTAL + line))
    yield from map(by_orders, (line, UP + line, b" " * 10_000_000 + UP, UP[:-1] + b" 1" * 5_000_000, b"4" * 10_000_000))
    yield {**with_deck(BOLTS, line, b"", "1 card 1"), "about": "deck"}
    yield {"wiring": BOLTS_WIRING, "orders": DOWN, "deck": line, "refused": {"deck": ["1 card 1"]}}


def a_million_and_one_lines():
    yield as_chart(b"\n" * 1_000_001)
    yield as_wiring(b"\n" * 1_000_001)
    yield by_orders(b"\n" * 1_000_001)
    yield by_orders(UP + b"\n" * 1_000_000)


def a_million_cards():
    """Blank cards; each page has eight of them."""
    for count in 1_000_000, 1_000_001:
        blank = pages(12, {}) * 125_000
        yield {**with_deck(BOLTS, b"\n" * count, blank, "3"), "about": "deck"}
        yield {"wiring": BOLTS_WIRING, "orders": DOWN, "deck": b"\n" * count, "pages": blank, "refused": {"deck": ["3"]}}


def without_end():
    """A device that never ends. A deck that is read card by card is refused by its first; any other text takes all memory."""
    room = 64 * 1024 * 1024
    yield {"chart": "/dev/zero", "deck": b"", "refused": {"chart": ["memory"]}, "room": room}
    yield {"wiring": "/dev/zero", "orders": DOWN, "deck": b"", "refused": {"wiring": ["memory"]}, "room": room}
    yield {"wiring": BOLTS_WIRING, "orders": "/dev/zero", "deck": b"", "refused": {"orders": ["memory"]}, "room": room, "about": "orders"}
    yield {"both": "/dev/zero", "refused": {"both": ["memory"]}, "room": room}
    yield {"chart": BOLTS, "wiring": BOLTS_WIRING, "orders": DOWN, "deck": "/dev/zero", "refused": {"deck": ["memory", "1 card 1"]}, "room": room, "about": "deck"}


def orders_of_other_numbers():
    """A unit twice, left out, or written otherwise; too many numbers and too few; a hundred thousand orders, the last one good or not."""
    for number in b"0", b"1", b"2", b"46", b"045", b"+45", b"45.0", b"4 5", b"4\t5", b"4_5", b"1" * 100, b"":
        yield by_orders(UP.replace(b"45", number))
        yield by_orders(DOWN + UP.replace(b"45", number) + b"x\n")
    yield from map(by_orders, (UP[:-1] + b" 45\n", UP[:-1] + b" 46\n", UP.replace(b"45", b"45\n"), UP.replace(b" ", b"  "), b" " + UP))
    yield from map(by_orders, (UP * 100_000, DOWN * 99_999 + UP[2:]))


def changed_wirings():
    """The wiring chart of one total with a line changed, and what is told or printed."""
    def changed(old, new, *refused, line=2):
        return {"wiring": ONE_TOTAL.replace(old, new), "orders": UP, "deck": ONE_TOTAL_DECK, "pages": pages(12, {line: b"   5"}), "refused": {"wiring": refused}}
    yield changed(b"JACK TOTAL 4", b"STOP 3 13", "75 line 3 cause 54")
    yield changed(b"FORM 12 1 9", b"FORM 12 9 1", line=10)
    yield changed(b"FORM 12 1 9", b"FORM 2 1 1", "75 line 2 cause 54")
    yield changed(b"WIRE CC PL.4.1\n", b"WIRE CC PL.4.1\n" * 2, "74 line 18")
    yield changed(b"WIRE SR.1 GE.4.1.3", b"WIRE CO.4.1 CI.4.2", "75 line 10 cause 53")
    yield changed(b"WIRE SR.1 GE.4.1.3", b"WIRE SR.1 SR.2", "75 line 10 cause 52")
    yield changed(b"END\n", b"", "76")


def contacts_in_a_ring():
    """What column 1 sends goes through a position of each pilot, or all of them and of all balances, to wheel 1, and back to the first."""
    pilots = list(zip(hubs("PIC", to(16), to(3)), hubs("PIN", to(16), to(3))))
    balances = list(zip(hubs("BAC", GROUPS, to(4)), hubs("BAN", GROUPS, to(4))))
    for ring in pilots[::3], pilots, pilots + balances:
        wires = [("SR.1", ring[0][0]), (ring[-1][1], "W.1"), *((one[1], other[0]) for one, other in zip(ring, ring[1:] + ring[:1]))]
        yield {"wiring": wiring_chart(["LIST"], wires), "orders": DOWN, "deck": b"A\nB\n", "pages": pages(12, {2: b"A", 3: b"B"})}


GROUPS = [f"{width}.{number}" for width in (3, 4, 6, 8) for number in range(1, 9)]


def wiring_chart(jacks, wires):
    """A wiring chart in pieces, made as they are asked for."""
    lines = chain(["WIRING407 1", "FORM 12 1 9"], (f"JACK {jack}" for jack in jacks), (f"WIRE {exit} {entry}" for exit, entry in wires), ["END"])
    return ((line + "\n").encode() for line in lines)


def hubs(letters, *ranges):
    return [".".join([letters, *map(str, numbers)]) for numbers in product(*ranges)]


def to(last):
    return range(1, last + 1)


def fullest():
    """Every exit but CO leads to every entry but CI, each CO to its own CI, and all jacks are plugged.

    Each wheel receives all rows in every cycle, which is no character, so all lines are blank. In every cycle the latch is set that
    calls for headings, so of one card each of the five lines, its own and the totals of four levels, stands on a page of its own.
    """
    positions = [f"{group}.{i}" for group in GROUPS for i in to(int(group[0]))]
    exits = [*hubs("FR", to(80)), *hubs("SR", to(80)), *hubs("CX", to(30)), *hubs("GX", positions), *hubs("BAN", GROUPS, to(4)),
             *hubs("BAT", GROUPS, to(4)), *hubs("PIN", to(16), to(3)), *hubs("PIT", to(16), to(3)), *hubs("SX", to(4), to(16)),
             *hubs("IX", to(3), to(30)), *hubs("CSD", to(16)), *hubs("CSZ", to(16)), *hubs("EM", to(8), [*range(10), 11, 12]), "CC",
             *hubs("PX", to(4), to(3)), *hubs("HX", to(3))]
    entries = [*hubs("CA", to(30)), *hubs("CB", to(30)), *hubs("GE", positions), *hubs("PL", GROUPS), *hubs("MI", GROUPS), *hubs("RO", GROUPS),
               *hubs("BT", GROUPS), *hubs("BAC", GROUPS, to(4)), *hubs("PIC", to(16), to(3)), *hubs("PIX", to(16)), *hubs("SE", to(4), to(16)),
               *hubs("SI", to(4)), *hubs("SO", to(4)), *hubs("IE", to(3), to(30)), *hubs("CSE", to(16)), *hubs("W", to(120)), *hubs("ST", to(3)),
               "SP.2", "SP.3", *hubs("SK", to(12)), "RS"]
    jacks = ["LIST", *(f"TOTAL {level}" for level in to(4)), *(f"HEAD {line}" for line in to(3)),
             *(f"{jack} {wheel}" for jack in ("LINK", "SUPPRESS", "SYMBOL") for wheel in to(120))]
    assert len(exits) * len(entries) + len(GROUPS) == 870_944
    wires = chain(product(exits, entries), ((f"CO.{group}", f"CI.{group}") for group in GROUPS))
    yield {"wiring": wiring_chart(jacks, wires), "orders": UP + DOWN, "deck": ONE_TOTAL_DECK, "pages": pages(12, {}, {}, {}, {}, {})}


# Each row of hostile texts: its name, the inputs, and the seconds that the program may take for one of them.
HOSTILE = [
    ("a chart cut after each byte", cut_charts, 2),
    ("a wiring chart cut after each byte", cut_wirings, 2),
    ("orders cut after each byte", cut_orders, 2),
    ("a deck cut after each byte", cut_decks, 2),
    ("each of 256 bytes in each text", each_byte_somewhere, 2),
    ("NUL, TAB, CR, byte 255 at each place of each text", some_bytes_everywhere, 2),
    ("texts of the greatest size, and larger by one", sizes, 2),
    ("ten million bytes in one line", in_one_line, 2),
    ("a million and one lines", a_million_and_one_lines, 2),
    ("a million cards, and one more", a_million_cards, 10),  # a deck that is run as it is read is run up to its fault
    ("texts that never end", without_end, 2),
    ("orders of other numbers, many orders", orders_of_other_numbers, 2),
    ("wiring charts with one line changed", changed_wirings, 2),
    ("rings through all pilots", contacts_in_a_ring, 5),  # `chart` reads thousands of panels with one wire changed
    ("the fullest wiring chart", fullest, 5),
]
