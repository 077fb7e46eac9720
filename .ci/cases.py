"""Journals made by hand on opening, posting and withdrawing: every fault at each kind of place, both sides of every limit,
figures worked by hand, and lines of the wrong form. Each has beginnings of lines that must be printed in this order."""

OPENED = "Line 1, open: accepted."
HUGE = 4_294_967_295


def opening(roles=(1, 1, 2, 3), days=1, weekday=0, count=None, **changed):
    """An opening; `changed` has figures of the last agent."""
    text = f"open agents {len(roles) if count is None else count} days {days} weekday {weekday}\n"
    for place, role in enumerate(roles, start=1):
        figures = {"role": role, "capacity": 0, "power": 0}
        if place == len(roles):
            figures.update(changed)
        text += f"agent {place}" + "".join(f" {label} {figure}" for label, figure in figures.items()) + "\n"
    return text


def line(kind=1, cause=0, injected=0, withdrawn=0, gross=0, factor=100_000, cost=0):
    return (
        f"line class {kind} cause {cause} injected {injected} withdrawn {withdrawn}"
        f" gross {gross} factor {factor} cost {cost}\n"
    )


def post(*lines, hour=0, price=50_000):
    return f"post hour {hour} price {price}\n" + "".join(lines)


def quiet(count):
    return [line()] * count


def every_case():
    posted = (limits, rules, sums, faults_together, hours)
    for part in (openings, *posted, statements, figures, lasting, malformed, passed_over, no_book):
        for name, text, *wanted in part():
            yield f"{part.__name__.replace('_', ' ')}, {name}", text, wanted


# ---- Opening


def openings():
    refused = "Line 1, open: refused, fault 3 at 0,"
    for count in (1, 2, 63, 64):
        yield f"{count} agents", opening([2] * count) + f"statement {count}\n", OPENED, f"Statement of agent {count},"
    for count in (0, 65, 66, 200):
        yield f"{count} agents", opening([1] * count), refused
    for days in (1, 2, 30, 31):
        last = 24 * days - 1
        yield (
            f"{days} days",
            opening([1], days) + post(line(), hour=last) + post(line(), hour=last + 1),
            OPENED,
            f"Line 3, post hour {last}: accepted.",
            f"Line 5, post hour {last + 1}: refused, fault 4 at {last + 1}, the hour is outside the month.",
        )
    for days in (0, 32, HUGE):
        yield f"{days} days", opening(days=days), refused
    for weekday in ("monday", "tuesday", "wednesday", "thursday", "friday", "saturday", "sunday", 0, 6):
        yield f"weekday {weekday}", opening(weekday=weekday), OPENED
    for weekday in (7, HUGE):
        yield f"weekday {weekday}", opening(weekday=weekday), refused
    for role, word in ((1, "generator"), (2, "distributor"), (3, "consumer")):
        shown = f"Statement of agent 2, {word}, provisional."
        yield f"role {role}", opening([1, role]) + "statement 2\n", OPENED, shown
        yield f"role {word}", opening([1, word]) + "statement 2\n", OPENED, shown
    for role in (0, 4, HUGE):
        yield f"role {role} first", opening([role, 1]), refused
        yield f"role {role} last", opening([1, role]), refused
    for role in (1, 2, 3):
        yield f"capacity at the limit, role {role}", opening([1, role], capacity=4_000_000), OPENED
        yield f"capacity past the limit, role {role}", opening([1, role], capacity=4_000_001), refused
        yield f"power of nothing, role {role}", opening([1, role], power=0), OPENED
    yield "power at the limit", opening([1], power=1_000_000), OPENED
    yield "power past the limit", opening([1], power=1_000_001), refused
    yield "power of a distributor", opening([1, 2], power=1), refused
    yield "power of a consumer", opening([1, 3], power=1), refused
    yield "all of it wrong", opening([9] * 65, 99, 9), refused


# ---- Posting: limits of price, line count, energy, factor and cost (fault 5)


def pair(good, bad, number, place, roles=(1, 1, 2, 3), days=1):
    """A book that accepts the first posting at hour 0 and refuses the second at hour 1."""
    text = opening(roles, days) + good + bad + "withdraw hour 1\nstatements\n"
    return (
        text,
        OPENED,
        f"Line {len(roles) + 2}, post hour 0: accepted.",
        f"Line {len(roles) + 2 + good.count(chr(10))}, post hour 1: refused, fault {number} at {place},",
        f"Line {text.count(chr(10)) - 1}, withdraw hour 1: refused, fault 9 at 1, the hour is free.",
        "The sum of balances is minus the residue.",
    )


def at_place(place, changed, count=4):
    """Quiet lines but for the one at this place."""
    lines = quiet(count)
    lines[place - 1] = line(**changed)
    return lines


def limits():
    good = post(*quiet(4))
    yield "price", *pair(post(*quiet(4), price=2_000_000), post(*quiet(4), hour=1, price=2_000_001), 5, 0)
    yield "price huge", *pair(post(*quiet(4), price=0), post(*quiet(4), hour=1, price=HUGE), 5, 0)
    for count in (0, 1, 3, 5, 64, 65, 100):
        yield f"{count} lines for 4 agents", *pair(good, post(*quiet(count), hour=1), 5, 0)
    full = [2] * 64
    for count in (0, 63, 65):
        yield f"{count} lines for 64 agents", *pair(post(*quiet(64)), post(*quiet(count), hour=1), 5, 0, full)
    both_sides = [
        ("injected", 4_000_000, 4_000_001, {}),
        ("withdrawn", 4_000_000, 4_000_001, {}),
        ("injected", 0, HUGE, {}),
        ("withdrawn", 0, HUGE, {}),
        ("factor", 50_000, 49_999, {}),
        ("factor", 150_000, 150_001, {}),
        ("factor", 100_000, 0, {}),
        ("factor", 100_000, HUGE, {}),
    ]
    forced = {"kind": 3, "cause": 3}
    for_generators = [
        ("gross", 4_000_000, 4_000_001, forced),
        ("gross", 0, HUGE, forced),
        ("cost", 2_000_000, 2_000_001, forced),
        ("cost", 0, HUGE, forced),
    ]
    for place in (1, 2, 3, 4):
        for label, inside, outside, other in both_sides + (for_generators if place < 3 else []):
            good = post(*at_place(place, {**other, label: inside}))
            bad = post(*at_place(place, {**other, label: outside}), hour=1)
            yield f"{label} {outside} on line {place}", *pair(good, bad, 5, place)
    for label in ("gross", "cost"):
        bad = post(*at_place(4, {label: 4_000_001}), hour=1)
        yield f"{label} of a normal line past its limit", *pair(post(*quiet(4)), bad, 5, 4)
    bad = post(line(), line(factor=1), line(), line(factor=1), hour=1)
    yield "the first of two lines", *pair(post(*quiet(4)), bad, 5, 2)
    yield "line 64", *pair(post(*quiet(64)), post(*quiet(63), line(factor=1), hour=1), 5, 64, full)


# ---- Posting: class, cause, gross and cost (fault 6)


def rules():
    normal = {}
    obligated = {"kind": 2, "injected": 10, "gross": 10}
    forced = {"kind": 3, "injected": 10, "gross": 10, "cause": 3}
    table = [
        ("class 0", 1, normal, {"kind": 0}),
        ("class 4", 2, normal, {"kind": 4}),
        ("class huge", 4, normal, {"kind": HUGE}),
        ("obligated distributor", 3, normal, {"kind": 2}),
        ("obligated consumer", 4, normal, {"kind": 2}),
        ("forced distributor", 3, normal, {"kind": 3, "cause": 1}),
        ("forced consumer", 4, normal, {"kind": 3, "cause": 1}),
        ("gross of an obligated line", 1, obligated, {**obligated, "gross": 9}),
        ("gross of a forced line", 2, forced, {**forced, "gross": 9}),
        ("gross of a normal line", 1, {"injected": 10}, {"injected": 10, "gross": 10}),
        ("gross of a normal distributor", 3, normal, {"gross": 1}),
        ("cost of a normal line", 2, normal, {"cost": 1}),
        ("cost of a normal consumer", 4, normal, {"cost": 1}),
        ("cause of a normal line", 1, normal, {"cause": 1}),
        ("cause of a normal consumer", 4, normal, {"cause": 4}),
        ("cause of an obligated line", 2, obligated, {**obligated, "cause": 1}),
        ("no cause of a forced line", 1, {**forced, "cause": 1}, {**forced, "cause": 0}),
        ("unknown cause of a forced line", 2, {**forced, "cause": 4}, {**forced, "cause": 5}),
        ("huge cause of a forced line", 2, {**forced, "cause": 2}, {**forced, "cause": HUGE}),
    ]
    for name, place, good, bad in table:
        yield name, *pair(post(*at_place(place, good)), post(*at_place(place, bad), hour=1), 6, place)
    bad = post(line(), line(0), line(), line(0), hour=1)
    yield "the first of two lines", *pair(post(*quiet(4)), bad, 6, 2)
    yield "line 64", *pair(post(*quiet(64)), post(*quiet(63), line(cost=1), hour=1), 6, 64, [2] * 64)
    yield "line 64 forced by 64", *pair(
        post(*quiet(63), line(3, 64)), post(*quiet(63), line(3, 65), hour=1), 6, 64, [1] * 64
    )


# ---- Posting: energies together (fault 7), obligated excess without weight (fault 8)


def sums():
    roles = (1, 1, 2, 3)
    half = 2_000_000
    for label in ("injected", "withdrawn"):
        good = post(*[line(**{label: 1_000_000})] * 4)
        bad = post(*[line(**{label: 1_000_000})] * 3, line(**{label: 1_000_001}), hour=1)
        yield f"{label} together", *pair(good, bad, 7, 0)
        bad = post(*[line(**{label: 4_000_000})] * 64, hour=1)
        yield f"{label} of 64 together", *pair(post(*quiet(64)), bad, 7, 0, [2] * 64)
    both = [line(injected=half, withdrawn=half)] * 2
    accepted = "Line 4, post hour 0: accepted."
    yield "injected and withdrawn apart", opening([1, 2]) + post(*both) + "statements\n", OPENED, accepted
    gross = [line(3, 1, gross=4_000_000)] * 2
    yield "gross has no sum", opening([1, 1]) + post(*gross) + "statements\n", OPENED, accepted

    due = {"kind": 2, "injected": 95, "gross": 100, "cost": 80_000}
    carried = post(line(**due), line(), line(), line(withdrawn=1))
    yield "no weight", *pair(carried, post(line(**due), *quiet(3), hour=1), 8, 0)
    by_distributor = post(line(**due), line(), line(withdrawn=1), line())
    bad = post(line(**due), line(withdrawn=500), line(), line(), hour=1)
    yield "a generator's withdrawn energy is no weight", *pair(by_distributor, bad, 8, 0)
    bad = post(line(**due), hour=1)
    yield "a generator alone", *pair(post(line(**{**due, "cost": 49_999})), bad, 8, 0, [1])
    level = {**due, "gross": 95, "cost": 50_000}
    bad = post(line(**{**level, "gross": 96}), *quiet(3), hour=1)
    yield "an excess of nothing needs no weight", *pair(post(line(**level), *quiet(3)), bad, 8, 0)
    point = {"kind": 2, "gross": 1, "cost": 50}  # half a point, rounded up
    bad = post(line(**point), *quiet(3), hour=1, price=0)
    less = post(line(**{**point, "cost": 49}), *quiet(3), price=0)
    yield "an excess of one point needs a weight", *pair(less, bad, 8, 0)
    yield (
        "forced excess needs no weight",
        opening(roles) + post(line(**{**due, "kind": 3, "cause": 2}), *quiet(3)) + "statements\n",
        OPENED,
        "Line 6, post hour 0: accepted.",
        "Overcost: 3.2500 dollars.",
        "Overcost: minus 3.2500 dollars.",
    )


# ---- Several faults at once


def faults_together():
    over = line(injected=4_000_000)
    due = line(2, gross=100, cost=80_000)
    table = [
        ("4 before 5", post(line(factor=1), *quiet(4), hour=24, price=HUGE), "post hour 24", 4, 24),
        ("4 before 6", post(line(0), *quiet(3), hour=24), "post hour 24", 4, 24),
        ("4 before 7", post(*[over] * 4, hour=HUGE), f"post hour {HUGE}", 4, HUGE),
        ("4 before 8", post(due, *quiet(3), hour=25), "post hour 25", 4, 25),
        ("5 at 0 before 5 at 1", post(line(factor=1), *quiet(3), price=2_000_001), "post hour 0", 5, 0),
        ("5 at 0 before 6", post(line(0), *quiet(4)), "post hour 0", 5, 0),
        ("5 at 4 before 6 at 1", post(line(0), *quiet(2), line(factor=1)), "post hour 0", 5, 4),
        ("5 and 6 on one line", post(line(), line(4, factor=1), *quiet(2)), "post hour 0", 5, 2),
        ("5 before 7", post(*[over] * 3, line(cost=2_000_001)), "post hour 0", 5, 4),
        ("5 before 8", post(due, *quiet(2), line(factor=1)), "post hour 0", 5, 4),
        ("6 before 7", post(*[over] * 3, line(cause=1)), "post hour 0", 6, 4),
        ("6 before 8", post(due, *quiet(2), line(gross=1)), "post hour 0", 6, 4),
        ("7 before 8", post(due, over, over, over), "post hour 0", 7, 0),
        ("withdrawal, 4 before 9", "withdraw hour 24\n", "withdraw hour 24", 4, 24),
    ]
    for name, text, call, number, place in table:
        yield name, opening() + text + "statements\n", OPENED, f"Line 6, {call}: refused, fault {number} at {place},"


# ---- Withdrawing, and hours one by one


def hours():
    yield (
        "withdrawn once",
        opening([1]) + post(line(injected=7), hour=8) + "withdraw hour 8\nwithdraw hour 8\nstatement 1\n",
        OPENED,
        "Line 5, withdraw hour 8: accepted.",
        "Line 6, withdraw hour 8: refused, fault 9 at 8, the hour is free.",
        "Market: 0.0000 dollars.",
        "Injected: 0 kilowatt-hours.",
    )
    for days, hour, number in ((1, 0, 9), (1, 23, 9), (1, 24, 4), (31, 743, 9), (31, 744, 4), (31, HUGE, 4)):
        text = opening([1], days) + f"withdraw hour {hour}\n"
        answer = f"Line 3, withdraw hour {hour}: refused, fault {number} at {hour},"
        yield f"hour {hour} of {days} days withdrawn", text, OPENED, answer
    yield (
        "a refused correction leaves the posting",
        opening([1]) + post(line(injected=7)) + post(line(injected=9, factor=1)) + "withdraw hour 1\nstatement 1\n",
        "Line 5, post hour 0: refused, fault 5 at 1,",
        "Line 7, withdraw hour 1: refused, fault 9 at 1,",
        "Injected: 7 kilowatt-hours.",
    )
    yield (
        "a refused opening lets the old book go",
        opening([1]) + post(line(injected=7)) + opening([1], days=0) + "statement 1\n",
        "Line 5, open: refused, fault 3 at 0,",
        "Line 7, statement 1: skipped, no book is open.",
    )
    every = "".join(post(line(1, 0, 4_000_000, 4_000_000, factor=150_000), hour=h, price=2_000_000) for h in range(744))
    yield (
        "a month at the limits",
        opening([1], 31) + every + "statements\n",
        "Market: 0.0000 dollars.",
        "Injected: 2976000000 kilowatt-hours.",
        "Withdrawn: 2976000000 kilowatt-hours.",
        "Peak: 4000000 kilowatt-hours in hour 0.",
    )
    apart = "".join(
        post(line(injected=4_000_000, factor=150_000), line(withdrawn=4_000_000, factor=150_000), hour=h, price=2_000_000)
        for h in range(744)
    )
    yield (
        "a month at the limits, two agents",
        opening([1, 3], 31) + apart + "statements\n",
        "Market: 8928000000.0000 dollars.",
        "Market: minus 8928000000.0000 dollars.",
        "Sum of balances: 0.0000 dollars.",
    )
    loaded = "".join(post(line(3, 2, gross=4_000_000, cost=2_000_000), line(), hour=h, price=0) for h in range(744))
    yield (
        "a month of forced cost at the limits",
        opening([1, 3], 31) + loaded + "statements\n",
        "Overcost: 5952000000.0000 dollars.",
        "Overcost: minus 5952000000.0000 dollars.",
    )


def statements():
    refused = "refused, fault 3 at 0, a figure of the opening or the statement's agent is outside the book's limits."
    for count in (1, 4, 64):
        yield (
            f"of {count} agents",
            opening([1] * count) + f"statement 0\nstatement {count}\nstatement {count + 1}\nstatement {HUGE}\n",
            f"Line {count + 2}, statement 0: {refused}",
            f"Line {count + 3}, statement {count}: accepted.",
            f"Statement of agent {count}, generator, provisional.",
            "Peak: 0 kilowatt-hours in hour 0.",
            "End of statement.",
            f"Line {count + 4}, statement {count + 1}: {refused}",
            f"Line {count + 5}, statement {HUGE}: {refused}",
        )
    yield (
        "of all, and the totals",
        opening([1, 2]) + "statements\n",
        "Line 4, statements: accepted.",
        "Statement of agent 1, generator, provisional.",
        "End of statement.",
        "Statement of agent 2, distributor, provisional.",
        "End of statement.",
        "Sum of balances: 0.0000 dollars.",
        "Residue of the standing hours: 0.0000 dollars.",
        "The sum of balances is minus the residue.",
    )


# ---- Figures worked by hand


def figures():
    yield from amounts()
    yield from shares()
    yield from excesses()
    sold = line(injected=1_000, factor=95_000), line(withdrawn=970, factor=102_000)
    yield (
        "generator and distributor",
        opening([1, 2]) + post(*sold, hour=8, price=60_000) + "statements\n",
        "Market: 57.0000 dollars.",
        "Market: minus 59.3640 dollars.",
        "Peak: 970 kilowatt-hours in hour 8.",
        "Sum of balances: minus 2.3640 dollars.",
        "Residue of the standing hours: 2.3640 dollars.",
    )


def amounts():
    residue = "Residue of the standing hours:"
    table = [
        ("1,000 kWh at 98,000 and 51,234", 51_234, {"injected": 1_000, "factor": 98_000}, "50.2093", "minus 50.2093"),
        ("a half goes up", 50, {"injected": 1}, "0.0001", "minus 0.0001"),
        ("below a half goes down", 49, {"injected": 1}, "0.0000", "0.0000"),
        ("a withdrawn half goes up too", 50, {"withdrawn": 1}, "minus 0.0001", "0.0001"),
        ("both halves cancel", 50, {"injected": 1, "withdrawn": 1}, "0.0000", "0.0000"),
    ]
    for name, price, figures_of_line, market, left in table:
        text = opening([1]) + post(line(**figures_of_line), price=price) + "statements\n"
        yield name, text, f"Market: {market} dollars.", f"{residue} {left} dollars."


def shares():
    ten = line(2, gross=1, cost=1_000)  # an excess of 10 points at price 0
    table = [
        ("10 points over 1, 1 and 1", [1, 2, 3, 2], [ten, *[line(withdrawn=1)] * 3], [10, -3, -3, -4]),
        (
            "a weight of nothing between, and a generator's energy aside",
            [1, 2, 3, 1, 2],
            [ten, line(withdrawn=2), line(), line(withdrawn=9), line(withdrawn=1)],
            [10, -6, 0, 0, -4],
        ),
        (
            "two obligated lines are shared as one sum",
            [1, 1, 2, 3],
            [*[line(2, gross=1, cost=500)] * 2, line(withdrawn=2), line(withdrawn=1)],
            [5, 5, -6, -4],
        ),
    ]
    for name, roles, lines, points in table:
        shown = [f"Overcost: {'minus ' if p < 0 else ''}0.{abs(p):04d} dollars." for p in points]
        yield name, opening(roles) + post(*lines, price=0) + "statements\n", *shown, "Sum of balances: 0.0000 dollars."


def excesses():
    book = opening([1, 3])
    due = {"injected": 95, "gross": 100, "cost": 80_000}
    yield (
        "excess of an obligated line",
        book + post(line(2, **due), line(withdrawn=95)) + "statements\n",
        "Market: 4.7500 dollars.",
        "Overcost: 3.2500 dollars.",
        "Balance: 8.0000 dollars.",
        "Overcost: minus 3.2500 dollars.",
    )
    yield (
        "a forced line that is its own cause",
        opening([1]) + post(line(3, 1, **due)) + "statement 1\n",
        "Market: 4.7500 dollars.",
        "Overcost: 0.0000 dollars.",
    )
    for cost, shown in ((49_999, "0.0000"), (50_000, "0.2500"), (50_001, "0.2501")):
        text = book + post(line(3, 2, **{**due, "cost": cost}), line()) + "statements\n"
        yield f"cost {cost} beside price 50000", text, f"Overcost: {shown} dollars."
    for cost, shown in ((50, "0.0001"), (49, "0.0000"), (150, "0.0002"), (149, "0.0001")):
        text = book + post(line(3, 2, gross=1, cost=cost), line(), price=0) + "statements\n"
        yield f"cost amount of 1 kWh at {cost}", text, f"Overcost: {shown} dollars."
    below = line(3, 2, injected=100, gross=100, factor=150_000, cost=50_000)
    yield "an excess is never below nothing", book + post(below, line()) + "statements\n", "Overcost: 0.0000 dollars."


# ---- What stands, whatever came before it


def lasting():
    def sale(hour=8, factor=102_000, withdrawn=970):
        lines = line(injected=1_000, factor=95_000), line(withdrawn=withdrawn, factor=factor)
        return post(*lines, hour=hour, price=60_000)

    book = opening([1, 2])
    same_in_the_end = [
        ("corrected with another factor and put back", sale() + sale(factor=60_000) + sale()),
        ("withdrawn and posted again", sale() + "withdraw hour 8\n" + sale()),
        ("corrected, withdrawn and posted", sale(factor=150_000) + sale(withdrawn=1) + "withdraw hour 8\n" + sale()),
        ("another hour withdrawn", sale(hour=9) + sale() + "withdraw hour 9\n"),
        ("a new book begins empty", sale(hour=9) + book + sale() + "withdraw hour 9\n"),
    ]
    for name, calls in same_in_the_end:
        yield (
            name,
            book + calls + "statements\n",
            "Market: 57.0000 dollars.",
            "Market: minus 59.3640 dollars.",
            "Withdrawn: 970 kilowatt-hours.",
            "Residue of the standing hours: 2.3640 dollars.",
        )
    peaks = [
        ("the earlier of equal peaks", sale(hour=9) + sale(hour=3) + sale(hour=5), 970, 3),
        ("the larger peak", sale(hour=3) + sale(hour=5, withdrawn=971), 971, 5),
        ("a peak corrected away", sale(hour=5, withdrawn=971) + sale(hour=3) + sale(hour=5, withdrawn=2), 970, 3),
        ("a peak withdrawn", sale(hour=5, withdrawn=971) + sale(hour=7) + "withdraw hour 5\n", 970, 7),
        ("a peak of nothing", sale(hour=5, withdrawn=0), 0, 0),
    ]
    for name, calls, kwh, hour in peaks:
        yield name, book + calls + "statement 2\n", f"Peak: {kwh} kilowatt-hours in hour {hour}."


# ---- Lines of the wrong form, and lines that are passed over

ANY_AGENT = "agent 1 role 1 capacity 0 power 0"

# Where a call is due.
NO_CALL = [
    "nonsense",
    "OPEN agents 1 days 1 weekday 0",
    "open",
    "open agents",
    "open agents 1",
    "open agents 1 days",
    "open agents 1 days 1",
    "open agents 1 days 1 weekday",
    "open agents 1 days 1 weekday holiday",
    "open days 1 agents 1 weekday 0",
    "open agents 1 days 1 weekday 0 now",
    "open agents one days 1 weekday 0",
    ANY_AGENT,
    "post",
    "post hour",
    "post hour 1",
    "post hour 1 price",
    "post price 1 hour 1",
    "post hour -1 price 1",
    "post hour +1 price 1",
    "post hour 1 price 1.5",
    "post hour 1 price 1,000",
    "post hour 1 price 4294967296",
    "post hour 1 price 99999999999999999999",
    "post hour 1 price 0x10",
    "post hour 1 price 1 2",
    "post hour\t1 price 1",
    "post hour 1 price 1\r",
    "withdraw",
    "withdraw 1",
    "withdraw hour",
    "withdraw hour x",
    "withdraw hour 1 2",
    "statement",
    "statement x",
    "statement 1 2",
    "statement agent 1",
    "statements 1",
    "Statements",
    "statementss",
    "line class 1 cause 0 injected 0 withdrawn 0 gross 0 factor 100000 cost 0",
    "contract",
    "contract x",
    "contract kind 1 seller 1 buyer 2 place market first 0 last 23 price 1 peak 1 medium 1 base 1 margin 0",
    "contract 1",
    "contract 1 kind block seller 1 buyer 2 place market first 0 last 23 price 1 peak 1 medium 1 base 1 margin 0",
    "contract 1 seller 1 kind 1 buyer 2 place market first 0 last 23 price 1 peak 1 medium 1 base 1 margin 0",
    "contract 1 kind 1 buyer 2 seller 1 place market first 0 last 23 price 1 peak 1 medium 1 base 1 margin 0",
    "contract 1 kind 1 seller 1 buyer 2 place first 0 last 23 price 1 peak 1 medium 1 base 1 margin 0",
    "contract 1 kind 1 seller 1 buyer 2 place market last 23 first 0 price 1 peak 1 medium 1 base 1 margin 0",
    "contract 1 kind 1 seller 1 buyer 2 place market first 0 last 23 price 1 base 1 medium 1 peak 1 margin 0",
    "contract 1 kind 1 seller 1 buyer 2 place market first 0 last 23 price 1 peak 1 medium 1 base 1",
    "contract 1 kind 1 seller 1 buyer 2 place market first 0 last 23 price 1 peak 1 medium 1 base 1 margin",
    "contract 1 kind 1 seller 1 buyer 2 place market first 0 last 23 price 1 peak 1 medium 1 base 1 margin 0 0",
    "contract 1 kind 1 seller 1 buyer 2 place market first 0 last 23 price 1 peak 1 medium 1 base 1 margin -1",
    "contract 1 kind 1 seller 1 buyer 2 place market first 0 last 4294967296 price 1 peak 1 medium 1 base 1 margin 0",
    "contract 4294967296 kind 1 seller 1 buyer 2 place market first 0 last 23 price 1 peak 1 medium 1 base 1 margin 0",
    *[
        f"contract 1 kind 1 seller 1 buyer 2 place {place} first 0 last 23 price 1 peak 1 medium 1 base 1 margin 0"
        for place in ("bar", "Market", "generator", 0, 4, 5, 11, HUGE, HUGE + 1)
    ],
    "cancel",
    "cancel x",
    "cancel -1",
    "cancel 4294967296",
    "cancel contract 1",
    "cancel 1 2",
    "close 1",
    "close now",
    "closed",
    "Close",
]

# Where a line of a posting is begun.
NO_LINE = [
    "line",
    "line class",
    "line cause 0 class 1",
    "line class odd cause 0 injected 0 withdrawn 0 gross 0 factor 1 cost 0",
    "line class 1 cause injected 0 withdrawn 0 gross 0 factor 1 cost 0",
    "line class 1 cause 0 Injected 0 withdrawn 0 gross 0 factor 1 cost 0",
    "line class 1 cause 0 injected 0 withdrawn 0 gross -0 factor 1 cost 0",
    "line class 1 cause 0 injected 0 withdrawn 0 gross 0 factor 1 cost 0 1",
]

# Where the second agent is due.
NO_SECOND_AGENT = [
    ANY_AGENT,
    "agent 3 role 1 capacity 0 power 0",
    "agent role 1 capacity 0 power 0",
    "agent 2 role trader capacity 0 power 0",
    "agent 2 role 1 capacity 0",
    "agent 2 role 1 power 0 capacity 0",
    "agent 2 role 1 capacity 0 power 0 0",
    "agent 2 role 1 capacity 4294967296 power 0",
    "statements",
    "nonsense",
    "open agents 1 days 1 weekday 0",
]


def malformed():
    refused = "Line 1, open: refused, fault 3 at 0,"
    for text in NO_CALL:
        yield repr(text), opening([1]) + text + "\nstatements\n", OPENED
    for text in ("nonsense", ANY_AGENT, line().strip(), "statements 1"):
        yield f"first line '{text}'", text + "\nstatements\n"
    for text in NO_LINE:
        calls = "withdraw hour 1\n" + post(line()) + text + "\nstatements\n"
        yield f"'{text}' in a posting", opening([1, 2]) + calls, OPENED, "Line 4, withdraw hour 1: refused, fault 9 at 1,"
    answered = opening([1]) + post(line()) + "nonsense\nstatements\n"
    yield "after a posting, which is answered first", answered, OPENED, "Line 3, post hour 0: accepted."
    for text in NO_SECOND_AGENT:
        yield f"'{text}' where agent 2 is due", opening([1], count=2) + text + "\nstatements\n"
    yield "the end where agent 2 is due", opening([1], count=2)
    yield "the end where agent 2 is due, no line feed", opening([1], count=2).rstrip()
    yield "the end where agent 1 is due", opening([], count=HUGE)
    yield "an agent after a refused opening", opening([], count=0) + ANY_AGENT + "\n", refused
    skipped = "Line 3, withdraw hour 1: skipped, no book is open."
    yield "while no book is open", opening([9]) + "withdraw hour 1\nnonsense\n", refused, skipped


def passed_over():
    yield "an empty journal", ""
    yield "comments alone", "# nothing\n\n   \n#\n"
    text = "# a month\n\n" + opening([1, 2]).replace("agent 2", "\n# the buyer\nagent 2")
    text += post(line(), "\n# between\n   \n", line(withdrawn=3)) + "# end\nstatements"
    yield (
        "comments and blanks anywhere",
        text,
        "Line 3, open: accepted.",
        "Line 8, post hour 0: accepted.",
        "Line 15, statements: accepted.",
        "Withdrawn: 3 kilowatt-hours.",
    )
    text = opening([1]).replace(" ", "   ") + "  withdraw   hour  007  \n  # aside\n"
    yield "more spaces", text, OPENED, "Line 3, withdraw hour 7: refused, fault 9 at 7,"
    text = opening(["01"]) + "statement 0000000000000000000001\n"
    yield "leading zeros", text, OPENED, "Line 3, statement 1: accepted."
    terms = "kind 01 seller 1 buyer 2 place 003 first 0 last 023 price 1 peak 0 medium 0 base 0 margin 0"
    text = opening([1, 2]) + f" contract  064   {terms} \n# aside\n\ncancel  0064  \n  close \n"
    yield (
        "more spaces and leading zeros, contracts and closing",
        text,
        OPENED,
        "Line 4, contract 64: accepted.",
        "Line 7, cancel 64: accepted.",
        "Line 8, close: refused, fault 10 at 0,",
    )
    yield "no last line feed after a closing", opening([1]) + "close", OPENED, "Line 3, close: refused, fault 10 at 0,"
    yield "no last line feed", opening([1]) + post(line()).rstrip(), OPENED, "Line 3, post hour 0: accepted."
    words = post(line("normal"), line("obligated"), line("forced", 2), line("normal"))
    yield "classes in words", opening([1, 1, 1, 2], weekday="sunday") + words, OPENED, "Line 6, post hour 0: accepted."


def no_book():
    calls = post(line(), line()) + "withdraw hour 1\nstatement 1\nstatements\n" + post(hour=9)
    names = ((1, "post hour 0"), (4, "withdraw hour 1"), (5, "statement 1"), (6, "statements"), (7, "post hour 9"))

    def skipped(after):
        return [f"Line {after + number}, {name}: skipped, no book is open." for number, name in names]

    refused = "Line 1, open: refused, fault 3 at 0,"
    yield "after a refused opening", opening([9]) + calls, refused, *skipped(2)
    yield (
        "and then another book",
        opening([9]) + calls + opening([1]) + "statement 1\n",
        *skipped(2),
        "Line 10, open: accepted.",
        "Statement of agent 1,",
    )
    yield "before any opening", calls + opening([1]), *skipped(0), "Line 8, open: accepted."
