"""Audits made by hand: which book is audited, which calls are counted, and figures worked by hand."""

from cases import HUGE, at_place, line, opening, post, quiet
from contract_cases import CLOSE, PAIR, block, cancel, contract, every_hour, opened, sold

NONE = "Agents and lines that differ: none."


def every_case():
    for part in (which_book, counted, worked, malformed):
        for name, text, *wanted in part():
            yield f"audit, {part.__name__.replace('_', ' ')}, {name}", text, wanted


def journal(*steps):
    """A journal of these calls; a step that comes with its answer gives its call alone."""
    return "".join(step if isinstance(step, str) else step[0] for step in steps)


def heard(calls):
    return [f"Calls that the first and the second book both heard: {calls}.", f"Of these calls, answered alike: {calls}."]


def balances(first, second, third, residue):
    sums = zip(("first", "second", "third"), (first, second, third))
    printed = [f"Sum of balances in the {name} book: {shown} dollars." for name, shown in sums]
    return [*printed, f"Residue of the standing hours: {residue} dollars."]


def agents(strangers, all_agents):
    return [
        f"Agents that are party to no standing contract: {strangers}.",
        f"Of these agents, with the same statement in the first and the second book: {strangers}.",
        f"Agents with the same statement in the first and the third book: {all_agents}.",
        NONE,
    ]


def which_book():
    nothing = "Audit: none, since no book was opened."
    refused = (
        "Audit: none, since the last opening was refused, fault 3 at 0,"
        " a figure of the opening or the statement's agent is outside the book's limits."
    )
    yield "none in an empty journal", "", nothing
    yield "none in comments", "# nothing\n", nothing
    yield "none in calls alone", post(line()) + "withdraw hour 1\nclose\ncancel 1\nstatements\n", nothing
    yield "a refused opening", opening([9]) + post(line()) + "statements\n", refused
    yield "an opening without agents", opening([]), refused
    yield "a refused opening after a book", opening([1]) + post(line()) + opening([1], days=32), refused
    yield "a book that hears nothing", opening([1, 2, 3]), *heard(0), *balances(*["0.0000"] * 4), *agents(3, 3)
    other = journal(opened((1, 7), (2,), (3,)), block(), "close\n")
    worked = journal(PAIR, block(), sold())
    sums = balances(*["minus 2.3640"] * 3, "2.3640")
    yield "the last of two", other + worked, *heard(1), *sums, *agents(0, 2)
    yield "the last after a refused one", opening([9]) + "statement 1\n" + worked, *heard(1), *sums, *agents(0, 2)
    yield "not the calls before it", "withdraw hour 1\nstatements\n" + worked, *heard(1), *sums, *agents(0, 2)


def counted():
    calls = [
        ("an accepted posting", post(*quiet(2)), 1),
        ("a refused posting", post(*quiet(3)), 1),
        ("a posting and its correction", post(*quiet(2)) + post(*quiet(2)), 2),
        ("a refused withdrawal", "withdraw hour 3\n", 1),
        ("an entry", journal(block()), 0),
        ("a refused entry", contract(0), 0),
        ("a refused cancelling", cancel(1), 0),
        ("an entry and its cancelling", journal(block(), cancel(1)), 0),
        ("a refused closing", "close\n", 1),
        ("a statement", "statement 1\n", 1),
        ("a refused statement", "statement 3\n", 1),
        ("all statements", "statements\n", 2),
    ]
    for name, text, count in calls:
        left = 0 if name == "an entry" else 2
        yield name, journal(PAIR) + text, *heard(count), *balances(*["0.0000"] * 4), *agents(left, 2)
    closed = journal(PAIR, *every_hour(quiet(2)), CLOSE)
    skipped = post(*quiet(2)) + "withdraw hour 3\nclose\n" + contract(1, buyer=2) + cancel(1) + "statements\n"
    yield "a closed month and what is skipped in it", closed + skipped, *heard(30), *agents(2, 2)
    hindered = journal(PAIR, sold(), block(), sold(hour=9), cancel(1), contract(1, kind=3, buyer=2))
    yield "contract calls that a standing hour hinders", hindered, *heard(2), *agents(2, 2)


def worked():
    month = journal(PAIR, block(), sold())
    yield "the month worked by hand", month, *heard(1), *balances(*["minus 2.3640"] * 3, "2.3640"), *agents(0, 2)
    pool = opened((1, 500, 3), (2, 500), (2,), (3,), (3,))
    lines = line(injected=1_000, factor=95_000), line(withdrawn=400), line(withdrawn=300), line(withdrawn=270), line()
    chain = journal(
        pool,
        contract(1, buyer=2, last=23, price=50_000, base=10),
        contract(5, kind=2, buyer=3, last=23, price=40_000, margin=10, place="seller"),
        contract(64, seller=2, buyer=4, last=23, price=60_000, medium=10, peak=20),
        contract(9, buyer=5, last=23, price=60_000, base=7),
        cancel(9),
        *every_hour(lines, price=60_000),
        CLOSE,
        "statements\n",
    )
    # Each hour injects 570,000 points and withdraws 970 kWh for 582,000.
    sums = balances(*["minus 28.8000"] * 3, "28.8000")
    yield "a closed month of blocks and a share", chain, *heard(30), *sums, *agents(1, 5)
    corrected = journal(
        pool,
        contract(1, buyer=2, last=23, price=50_000, base=10),
        *every_hour(at_place(1, {"injected": 9}, 5), price=10),
        *every_hour(lines, price=60_000),
        "close\n",
        cancel(1),
    )
    yield "corrected, closed, and a skipped cancelling", corrected, *heard(49), *sums, *agents(3, 5)
    same = journal(PAIR, block(3), block(7), block(3), cancel(3), sold())
    yield "one of two cancelled", same, *heard(1), *balances(*["minus 2.3640"] * 3, "2.3640"), *agents(0, 2)
    free = journal(PAIR, block(3), sold(), "withdraw hour 8\n", cancel(3), sold())
    yield "free again before it is cancelled", free, *heard(3), *balances(*["minus 2.3640"] * 3, "2.3640"), *agents(2, 2)
    full = opened((1, 500), *[(2,)] * 63)
    every = [block(number, 1, buyer=1 + number % 63) for number in range(1, 65) if number % 63]
    yield "63 contracts of one seller", journal(full, *every, (post(*quiet(64)),)), *heard(1), *agents(1, 64)


def malformed():
    month = journal(PAIR, block(), sold())
    yield "a wrong line", month + "nonsense\n"
    yield "a wrong line before the last opening", month + "close 1\n" + month
    yield "the end where an agent is due", month + opening([1], count=2)
    yield "a wrong line of a posting", month + post("line\n")
    yield "a figure too large for a number", month + f"cancel {HUGE + 1}\n"
