"""Journals made by hand on packets: the format (fault 17) at every number and every byte of one, the faults of a posting met by
packet, and packets beside posts, contracts and a closing, settled and audited. And drawn journals with packets in them."""

import random
import re
from itertools import accumulate, cycle, islice

import audit_cases
import cases
import contract_cases
import drawn
from cases import HUGE, OPENED, line, opening, post, quiet
from contract_cases import ACCEPTED, CLOSE, CLOSED, NO_BOOK, PAIR
from contract_cases import block, cancel, contract, every_hour, opened, refused, shown, sold, told
from packets import hour_packet, spelled

DRAWN = 8
DRAWN_TO_BE_CLOSED = 4


def every_case():
    """The name of each case, its command, its journal, and beginnings of lines that it must print in this order."""
    formats = (worked, truncated, every_value, changed, figures, line_counts, left_over)
    for part in (*formats, before, limits, hours, corrected, covered, closed, no_book):
        for name, *steps in part():
            yield titled(part, name), "settle", *told(*steps)
    for part in (reposted, malformed, drawn_packets):
        for name, text, *wanted in part():
            yield titled(part, name), "settle", text, wanted
    for part in (counted, audited, malformed_audits, drawn_audits):
        for name, text, *wanted in part():
            yield titled(part, name), "audit", text, wanted


def titled(part, name):
    return f"packets, {part.__name__.replace('_', ' ')}, {name}"


# ---- How packets are written


def sent(data):
    """The journal's line that posts these bytes."""
    return f"packet {data.hex()}\n"


def bytes_of(*lines, hour=0, price=50_000):
    """The packet of what `post` posts with the same words."""
    return hour_packet(hour, price, [[int(word) for word in text.split()[2::2]] for text in lines])


def packet(*lines, **heading):
    return sent(bytes_of(*lines, **heading))


POSTING = re.compile(r"post hour (\d+) price (\d+)\n((?:line .*\n)+)")


def bytes_of_posting(posting):
    return bytes_of(*posting[3].splitlines(), hour=int(posting[1]), price=int(posting[2]))


def some_by_packets(text, chosen, made=bytes):
    """The journal with a packet for each posting that has lines and is chosen; what is made of the packet is sent."""
    return POSTING.sub(lambda posting: sent(made(bytes_of_posting(posting))) if chosen() else posting[0], text)


def by_packets(text):
    return some_by_packets(text, lambda: True)


def perhaps_damaged(rng, whole, damaged):
    """The packet, or with this likelihood the packet with one byte left out, changed or put in."""
    if rng.random() >= damaged:
        return whole
    place = rng.randrange(len(whole))
    byte = bytes([rng.choice([0, 1, 127, 128, 255, rng.randrange(256)])])
    return whole[:place] + rng.choice([b"", byte, byte + whole[place : place + 1]]) + whole[place + 1 :]


def fault_17(place):
    words = f"no number that the format allows starts at byte {place}, or bytes are left over from there on."
    return f"{refused(17, place)} {words}"


# ---- The format (fault 17)

# The packet that docs/RULES.md has worked by hand, number by number. It posts what `sold` posts.
NUMBERS = {
    "hour": bytes([8]),
    "price": bytes([224, 212, 3]),
    "number of lines": bytes([2]),
    "class of line 1": bytes([1]),
    "cause of line 1": bytes([0]),
    "injected of line 1": bytes([232, 7]),
    "withdrawn of line 1": bytes([0]),
    "gross of line 1": bytes([0]),
    "factor of line 1": bytes([152, 230, 5]),
    "cost of line 1": bytes([0]),
    "class of line 2": bytes([1]),
    "cause of line 2": bytes([0]),
    "injected of line 2": bytes([0]),
    "withdrawn of line 2": bytes([202, 7]),
    "gross of line 2": bytes([0]),
    "factor of line 2": bytes([240, 156, 6]),
    "cost of line 2": bytes([0]),
}
PACKET = b"".join(NUMBERS.values())
STARTS = dict(zip(NUMBERS, accumulate(map(len, NUMBERS.values()), initial=0)))

# The largest packet: 64 lines of the largest figures.
LARGEST = hour_packet(HUGE, HUGE, [[HUGE] * 7] * 64)


def with_number(name, spelling):
    """The packet worked by hand with these bytes in the place of one number."""
    return b"".join({**NUMBERS, name: spelling}.values())


def worked():
    """The packet worked by hand, in digits of either case, and single numbers of it."""
    end = (
        "statements\n",
        ACCEPTED,
        "Market: 57.0000 dollars.",
        "Contracts: minus 1.0000 dollars.",
        "Market: minus 59.3640 dollars.",
        "Contracts: 1.0000 dollars.",
        "Peak: 970 kilowatt-hours in hour 8.",
        "Residue of the standing hours: 2.3640 dollars.",
    )
    digits = PACKET.hex()
    mixed = "".join(c.upper() if place % 3 else c for place, c in enumerate(digits))
    for name, word in (("small digits", digits), ("capital digits", digits.upper()), ("digits of either case", mixed)):
        yield name, PAIR, block(), (f"packet {word}\n", ACCEPTED), end
    yield "more spaces", PAIR, block(), (f"  packet   {digits}  \n", ACCEPTED), end
    yield "written by the model", PAIR, block(), (packet(*sold_lines(), hour=8, price=60_000), ACCEPTED), end
    yield "no last line feed", PAIR, (f"packet {digits}", ACCEPTED)
    spelled_by_hand = {127: [127], 128: [128, 1], 300: [172, 2], 16_383: [255, 127], 16_384: [128, 128, 1]}
    for kwh, spelling in spelled_by_hand.items():
        yield f"{kwh} is spelled {spelling}", PAIR, *(
            (sent(with_number("injected of line 1", bytes(spelling))), ACCEPTED),
            ("statement 1\n", ACCEPTED, f"Injected: {kwh} kilowatt-hours."),
        )


def sold_lines():
    return line(injected=1_000, factor=95_000), line(withdrawn=970, factor=102_000)


def truncated():
    """A packet that is cut off is told at the number that is not there, or not all of it."""
    for length in range(1, len(PACKET)):
        place = max(start for start in STARTS.values() if start <= length)
        yield f"{length} bytes of {len(PACKET)}", PAIR, *(
            (sent(PACKET[:length]), fault_17(place)),
            ("withdraw hour 8\n", refused(9, 8)),
        )
    yield "the largest but its last byte", PAIR, (sent(LARGEST[:-1]), fault_17(len(LARGEST) - 5))


def every_value():
    """Each byte in turn has every value, the one with the top bit turned among them. What it then says the model says alone."""
    for place in range(len(PACKET)):
        yield f"byte {place}", PAIR, *unforeseen(PACKET[:place] + bytes([byte]) + PACKET[place + 1 :] for byte in range(256))


def unforeseen(packets):
    return [*((sent(data), "") for data in packets), ("statements\n", ACCEPTED)]


def changed():
    """Bytes left out, put in and swapped, at each place."""
    places = range(len(PACKET))
    yield "a byte left out", PAIR, *unforeseen(PACKET[:place] + PACKET[place + 1 :] for place in places)
    yield "a byte twice", PAIR, *unforeseen(PACKET[:place] + PACKET[place : place + 1] + PACKET[place:] for place in places)
    for byte in (0, 1, 127, 128, 255):
        yield f"byte {byte} put in", PAIR, *unforeseen(PACKET[:place] + bytes([byte]) + PACKET[place:] for place in places)
    swapped = [PACKET[:p] + PACKET[p : p + 2][::-1] + PACKET[p + 2 :] for p in places]
    yield "neighbours swapped", PAIR, *unforeseen(swapped)
    turned = [PACKET[:p] + bytes([PACKET[p] ^ 128]) + PACKET[p + 1 :] for p in places]
    yield "a top bit turned", PAIR, *[(sent(data), "refused, fault 17 at ") for data in turned]


def figures():
    """Each number in turn with more groups than it needs, above 32 bits, and the largest of 32 bits."""
    too_large = [spelled(value) for value in (2**32, 2**35, 2**64 - 1, 2**64, 2**90)]
    largest = {"hour": refused(4, HUGE), "price": refused(5), "number of lines": fault_17(4)}
    for line_number in (1, 2):
        for label in ("class", "cause", "injected", "withdrawn", "gross", "factor", "cost"):
            largest[f"{label} of line {line_number}"] = refused(6 if label in ("class", "cause") else 5, line_number)
    for name, answer in largest.items():
        number = NUMBERS[name]
        overlong = [number[:-1] + bytes([128 + number[-1], *[128] * more, 0]) for more in (0, 1, 3, 7, 8, 9, 50)]
        yield name, PAIR, *(
            *[(sent(with_number(name, spelling)), fault_17(STARTS[name])) for spelling in (*overlong, *too_large)],
            (sent(with_number(name, b"\xff\xff\xff\xff\x0f")), answer),
            ("withdraw hour 8\n", refused(9, 8)),
        )


def line_counts():
    for count in (1, 2, 63, 64):
        book = opened(*[(2,)] * count)
        yield f"{count} for as many agents", book, (packet(*quiet(count)), ACCEPTED), ("withdraw hour 0\n", ACCEPTED)
    for count in (0, 65, 66, 127, 128, 300):
        yield f"{count}", opened(*[(2,)] * 64), *(
            (packet(*quiet(count), price=0), fault_17(2)),
            (sent(b"\0\0" + spelled(count)), fault_17(2)),
            (sent(hour_packet(HUGE, HUGE, [[0] * 7] * count)), fault_17(10)),
        )
    for count in (1, 3, 64):
        yield f"{count} for 2 agents", PAIR, (packet(*quiet(count)), refused(5, 0))
    more, fewer = with_number("number of lines", b"\3"), with_number("number of lines", b"\1")
    yield "one more than there are", PAIR, (sent(more), fault_17(len(PACKET)))
    yield "one fewer than there are", PAIR, (sent(fewer), fault_17(STARTS["class of line 2"]))


def left_over():
    tails = [("a zero", b"\0"), ("a one", b"\1"), ("half a number", b"\x80"), ("the largest byte", b"\xff")]
    for name, tail in (*tails, ("another packet", PACKET), ("5,000 bytes", bytes(5_000))):
        yield name, PAIR, (sent(PACKET + tail), fault_17(25)), ("withdraw hour 8\n", refused(9, 8))
    least = hour_packet(0, 0, [[0] * 7])
    yield "after the smallest packet", opened((2,)), (sent(least), refused(5, 1)), (sent(least + b"\0"), fault_17(10))
    yield "after the largest packet", PAIR, (sent(LARGEST), refused(4, HUGE)), (sent(LARGEST + b"\0"), fault_17(2_251))


# ---- The faults of a posting, by packet


def before():
    """Fault 17 is told before every other fault of the packet."""
    over = line(injected=4_000_000)
    due = line(2, gross=100, cost=80_000)
    faulty = [
        (4, 24, bytes_of(*quiet(2), hour=24)),
        (5, 0, bytes_of(*quiet(3))),
        (5, 2, bytes_of(line(), line(factor=1))),
        (6, 1, bytes_of(line(0), line())),
        (7, 0, bytes_of(over, over)),
        (8, 0, bytes_of(due, line())),
    ]
    for number, place, data in faulty:
        yield f"17 before {number} at {place}", PAIR, *(
            (sent(data), refused(number, place)),
            (sent(data + b"\0"), fault_17(len(data))),
            (sent(data[:-1]), fault_17(len(data) - 1)),
        )


def limits():
    """Both sides of each limit of fault 5."""
    yield "price", PAIR, (packet(*quiet(2), price=2_000_000), ACCEPTED), (packet(*quiet(2), price=2_000_001), refused(5, 0))
    forced = dict(kind=3, cause=2)
    for label, inside, outside, other in (
        ("injected", 4_000_000, 4_000_001, {}),
        ("withdrawn", 4_000_000, 4_000_001, {}),
        ("gross", 4_000_000, 4_000_001, forced),
        ("factor", 50_000, 49_999, {}),
        ("factor", 150_000, 150_001, {}),
        ("cost", 2_000_000, 2_000_001, forced),
    ):
        good, bad = (line(**{**other, label: figure}) for figure in (inside, outside))
        yield f"{label} {outside}", opened((1,), (1,)), *(
            (packet(good, line()), ACCEPTED),
            (packet(line(), good), ACCEPTED),
            (packet(bad, line()), refused(5, 1)),
            (packet(line(), bad), refused(5, 2)),
        )


def hours():
    for days in (1, 31):
        last = 24 * days - 1
        yield f"of {days} days", opened((1,), (2,), days=days), *(
            (packet(*quiet(2), hour=0), ACCEPTED),
            (packet(*quiet(2), hour=last), ACCEPTED),
            (packet(*quiet(2), hour=last + 1), f"refused, fault 4 at {last + 1}, the hour is outside the month."),
            (f"withdraw hour {last}\n", ACCEPTED),
            ("close\n", refused(10, 1)),
        )


def reposted():
    """Cases of posts with packets in their place."""
    standing = ((name, *told(*steps)) for name, *steps in contract_cases.standing())
    posted = ((name, text, wanted) for name, text, *wanted in (*cases.sums(), *cases.faults_together()))
    for name, text, wanted in (*posted, *standing):
        yield name, by_packets(text), *[answer_by_packets(text, answer) for answer in wanted]


def answer_by_packets(text, answer):
    """The answer of a call of this journal, where the journal has packets for its postings."""

    def moved(number):
        lines = text.splitlines(keepends=True)[: int(number[1]) - 1]
        return f"Line {by_packets(''.join(lines)).count(chr(10)) + 1},"

    return re.sub(r", post hour \d+:", ", packet:", re.sub(r"^Line (\d+),", moved, answer))


# ---- Packets beside posts, contracts and a closing

WHOLE = sent(PACKET), ACCEPTED
CUT_OFF = sent(PACKET[:-1]), fault_17(24)
OTHER = dict(hour=8, price=90_000)
OTHER_LINES = line(injected=10), line(withdrawn=7)


def corrected():
    def ends(market, kwh=970):
        residue = f"Withdrawn: {kwh} kilowatt-hours.", "The sum of balances is minus the residue."
        return "statements\n", ACCEPTED, f"Market: {market} dollars.", *residue

    first, other = ends("57.0000"), ends("0.9000", 7)
    posted, posted_other = sold(), (post(*OTHER_LINES, **OTHER), ACCEPTED)
    sent_other = packet(*OTHER_LINES, **OTHER), ACCEPTED
    yield "a post by a packet", PAIR, posted_other, other, WHOLE, first
    yield "a packet by a post", PAIR, WHOLE, first, posted_other, other
    yield "a packet by a packet", PAIR, WHOLE, first, sent_other, other, WHOLE, first
    yield "a packet and a post alike", PAIR, WHOLE, posted, first, WHOLE, first
    yield "a refused packet leaves a post", PAIR, posted, CUT_OFF, first
    bad_class = sent(with_number("class of line 1", b"\4")), refused(6, 1)
    yield "a refused packet leaves a packet", PAIR, sent_other, CUT_OFF, bad_class, other
    yield "a refused post leaves a packet", PAIR, WHOLE, (post(*quiet(3), hour=8), refused(5, 0)), first
    yield "a packet withdrawn and posted", PAIR, *(
        WHOLE,
        ("withdraw hour 8\n", ACCEPTED),
        ("withdraw hour 8\n", refused(9, 8)),
        ends("0.0000", 0),
        posted,
        first,
    )
    yield "a refused packet posts nothing", PAIR, CUT_OFF, ("withdraw hour 8\n", refused(9, 8)), ends("0.0000", 0)
    yield "a packet right after a post without lines", PAIR, (post(hour=8), refused(5, 0)), WHOLE, first


def covered():
    """Contracts beside packets."""

    def ends(seller):
        return "statements\n", ACCEPTED, *shown("Contracts", seller, -seller), "The sum of balances is minus the residue."

    for place, seller in (("market", -10_000), ("seller", -7_000), ("buyer", -11_200)):
        yield f"a block, place {place}", PAIR, block(place=place), WHOLE, ends(seller)
    yield "a standing hour hinders contracts", PAIR, block(1), *(
        CUT_OFF,
        (cancel(1), ACCEPTED),
        block(1),
        WHOLE,
        (cancel(1), refused(14, 8)),
        (contract(2, buyer=2, last=23), refused(14, 8)),
        CUT_OFF,
        ("withdraw hour 8\n", ACCEPTED),
        (cancel(1), ACCEPTED),
        WHOLE,
        ends(0),
    )
    trio = opened((1, 1_000), (2,), (2,))
    lines = line(injected=90), line(withdrawn=10), line(withdrawn=20)
    more = line(injected=90), line(withdrawn=20), line(withdrawn=20)
    for name, one, two in (("a packet", post, packet), ("a post", packet, post), ("packets", packet, packet)):
        yield f"a correction by {name} moves a share", trio, *(
            (contract(kind=2, buyer=2, price=100), ACCEPTED),
            (one(*lines, price=0), ACCEPTED),
            ("statements\n", ACCEPTED, *shown("Contracts", 30, -30, 0)),
            (two(*more, price=0), ACCEPTED),
            ("statements\n", ACCEPTED, *shown("Contracts", 45, -45, 0)),
            (one(*lines, price=0), ACCEPTED),
            ("statements\n", ACCEPTED, *shown("Contracts", 30, -30, 0)),
        )


def day_of_packets(lines, price):
    return [(packet(*lines, hour=hour, price=price), ACCEPTED) for hour in range(24)]


def closed():
    month = PAIR, block(), *day_of_packets(sold_lines(), 60_000)
    final = "statements\n", ACCEPTED, "Statement of agent 1, generator, final.", *shown("Balance", 24 * 560_000, 24 * -583_640)
    yield "a day of packets", *month, CLOSE, final
    skipped = sent(PACKET), sent(PACKET[:-1]), sent(b"\x80"), packet(*quiet(2), hour=24), packet(*quiet(3))
    yield "packets are skipped", *month, CLOSE, *[(call, CLOSED) for call in skipped], final
    yield "a refused closing leaves the month open", *month[:-1], *(
        ("close\n", refused(10, 23)),
        (packet(*sold_lines(), hour=23, price=60_000), ACCEPTED),
        CLOSE,
        final,
    )
    yield "a refused packet leaves its hour missing", *month[:-1], CUT_OFF, ("close\n", refused(10, 23))
    yield "a new book hears packets", *month, CLOSE, WHOLE[:1] + (CLOSED,), PAIR, WHOLE, ("close\n", refused(10, 0))


def no_book():
    calls = [(sent(PACKET), NO_BOOK), (sent(PACKET[:-1]), NO_BOOK), (sent(b"\0"), NO_BOOK)]
    yield "before any opening", *calls, PAIR, WHOLE
    yield "after a refused opening", (opened((9,))[0], refused(3)), *calls, PAIR, CUT_OFF, WHOLE
    yield "after a refused second opening", PAIR, WHOLE, (opened((9,))[0], refused(3)), *calls, ("statement 1\n", NO_BOOK)


# ---- Lines of the wrong form

# What no packet is, where a call is due. `.ci/journals` looks at the words on standard error where digits are wanted.
NO_PACKET = [
    "packet",
    "packet 08e",
    "packet 0g",
    "packet 08e0d403zz",
    "packet 0x08",
    "packet -8",
    "packet 08,e0d4",
    "packet 0_08",
    "packet 08\t\te0",
    "packet 08\r",
    "packet 08 e0",
    "packet hour 8 price 60000",
    'packet "08"',
    "Packet 08",
    "packets 08",
    "packet08",
]


def malformed():
    for text in NO_PACKET:
        yield repr(text), opening([1]) + text + "\nstatements\n", OPENED
    yield "after a packet, which is answered first", PAIR[0] + sent(PACKET) + "packet 0\n", OPENED, "Line 4, packet: accepted."
    answered = opening([1]) + post(line()) + "packet 0\n"
    yield "after a posting, which is answered first", answered, OPENED, "Line 3, post hour 0: accepted."
    accepted = "Line 4, packet: accepted."
    yield "a line of a posting after a packet", PAIR[0] + sent(PACKET) + line() + "statements\n", OPENED, accepted
    yield "where agent 2 is due", opening([1], count=2) + sent(PACKET) + "statements\n"
    yield "while no book is open", sent(PACKET) + "packet\n", "Line 1, packet: skipped, no book is open."


# ---- Audits


def counted():
    """A packet counts as a call that both books heard, however it was answered."""
    calls = [
        ("an accepted packet", sent(PACKET), 1),
        ("a packet that is cut off", sent(PACKET[:-1]), 1),
        ("a packet of an hour outside the month", packet(*quiet(2), hour=24), 1),
        ("a packet of a line too many", packet(*quiet(3)), 1),
        ("a packet and its correction by a post", sent(PACKET) + sold()[0], 2),
        ("a post and its correction by a packet", sold()[0] + sent(PACKET), 2),
        ("a packet withdrawn", sent(PACKET) + "withdraw hour 8\n", 2),
    ]
    for name, text, count in calls:
        yield name, PAIR[0] + text, *audit_cases.heard(count), *audit_cases.agents(2, 2)
    worked_sums = audit_cases.balances(*["minus 2.3640"] * 3, "2.3640")
    before_the_opening = sent(PACKET) + sent(b"\0") + PAIR[0] + sent(PACKET)
    yield "not what comes before the opening", before_the_opening, *audit_cases.heard(1), *worked_sums
    month = audit_cases.journal(PAIR, *every_hour(quiet(2)), CLOSE, WHOLE, CUT_OFF, WHOLE)
    yield "skipped in a closed month", month, *audit_cases.heard(28), *audit_cases.agents(2, 2)
    hindered = audit_cases.journal(PAIR, WHOLE, block(), CUT_OFF, cancel(1), "withdraw hour 8\n", block(), WHOLE, block(2))
    yield "contract calls between packets", hindered, *audit_cases.heard(4), *worked_sums, *audit_cases.agents(0, 2)


def audited():
    """The audits worked by hand, with packets for every other posting."""
    for name, text, *wanted in audit_cases.worked():
        turns = cycle([True, False])
        yield name, some_by_packets(text, lambda: next(turns)), *wanted


def malformed_audits():
    for text in ("packet", "packet 08e", "packet 08 e0"):
        yield repr(text), PAIR[0] + sent(PACKET) + text + "\n"


# ---- Drawn journals with packets for about every other posting, of which some are damaged


def drawn_journals():
    to_be_closed = islice(drawn.every_journal(), drawn.SMALL_JOURNALS, drawn.SMALL_JOURNALS + DRAWN_TO_BE_CLOSED)
    journals = [(0.2, *case) for case in islice(drawn.every_journal(), DRAWN)] + [(0.02, *case) for case in to_be_closed]
    for seed, (damaged, name, text) in enumerate(journals):
        rng = random.Random(4000 + seed)
        yield name, some_by_packets(text, lambda: rng.random() < 0.5, lambda whole: perhaps_damaged(rng, whole, damaged))


def drawn_packets():
    for name, text in drawn_journals():
        yield name, text, OPENED


def drawn_audits():
    for name, text in drawn_journals():
        yield name, text, "Calls that the first and the second book both heard:", audit_cases.NONE
