"""Journals made by hand on contracts and closing: faults 10 to 14 at each kind of place, both sides of every limit,
figures worked by hand, and a closed month. Each call has the answer that it must get, and what must be printed below it."""

from cases import HUGE, line, post, quiet

ACCEPTED = "accepted."
CLOSED = "skipped, the month is closed."
NO_BOOK = "skipped, no book is open."

MOST = 4_000_000


def every_case():
    entering = (numbers, parties, hours, figures, blocks, shares, kinds)
    for part in (*entering, covered, together, legs, bands, shared, standing, closing, missing, power, closed, no_book):
        for name, *steps in part():
            text, wanted = told(*steps)
            yield f"{part.__name__.replace('_', ' ')}, {name}", text, wanted


# ---- How a case is written

# How many words of a call are its name.
NAMES = {"open": 1, "contract": 2, "cancel": 2, "post": 3, "packet": 1, "withdraw": 3}
NAMES |= {"close": 1, "statement": 2, "statements": 1}


def told(*steps):
    """A journal, and the beginnings of lines that it must print. A step is a call, its answer, and what is printed below."""
    text, wanted = "", []
    for call, answer, *printed in steps:
        words = call.split()
        name = " ".join(words[: NAMES[words[0]]])
        wanted += [f"Line {text.count(chr(10)) + 1}, {name}: {answer}", *printed]
        text += call
    return text, wanted


def opened(*agents, days=1, weekday=0):
    """A book; an agent is its role, its capacity and its power, of which the last ones may be left out."""
    text = f"open agents {len(agents)} days {days} weekday {weekday}\n"
    for place, agent in enumerate(agents, start=1):
        role, capacity, kilowatts = (*agent, 0, 0)[:3]
        text += f"agent {place} role {role} capacity {capacity} power {kilowatts}\n"
    return text, ACCEPTED


# Two generators, two distributors and a large consumer.
POOL = opened((1, MOST), (1, 100), (2, MOST), (3,), (2,))


def contract(number=1, **changed):
    """A block of nothing in the first hour, between agents 1 and 3, but for what is changed."""
    figures = dict(kind=1, seller=1, buyer=3, place="market", first=0, last=0, price=0, peak=0, medium=0, base=0, margin=0)
    figures.update(changed)
    return f"contract {number} " + " ".join(f"{label} {figure}" for label, figure in figures.items()) + "\n"


def cancel(number=1):
    return f"cancel {number}\n"


def refused(number, place=0):
    return f"refused, fault {number} at {place},"


def both_sides(inside, outside, **same):
    """Terms inside a limit are accepted, and those outside are refused and take no number."""
    return (
        (contract(1, **same, **inside), ACCEPTED),
        (contract(2, **same, **outside), refused(13)),
        (cancel(2), refused(12)),
        (cancel(1), ACCEPTED),
    )


# ---- Numbers of contracts (fault 12)


def numbers():
    for number in (1, 2, 63, 64):
        yield f"{number} taken and free again", POOL, *(
            (cancel(number), refused(12)),
            (contract(number), ACCEPTED),
            (contract(number), refused(12)),
            (contract(number, price=1, last=23), refused(12)),
            (cancel(number), ACCEPTED),
            (cancel(number), refused(12)),
            (contract(number, price=1), ACCEPTED),
        )
    for number in (0, 65, 66, 128, HUGE):
        yield f"{number} is none", POOL, (contract(number), refused(12)), (cancel(number), refused(12))
    yield "in words", POOL, (
        contract(0),
        "refused, fault 12 at 0, the contract number is outside 1 to 64, taken or not standing.",
    )
    every = range(1, 65)
    yield "all 64", POOL, *(
        *[(contract(number, price=number), ACCEPTED) for number in every],
        *[(contract(number), refused(12)) for number in (0, *every, 65)],
        *[(cancel(number), ACCEPTED) for number in every],
        *[(cancel(number), refused(12)) for number in every],
    )
    yield "one cancelled, the others left", POOL, *(
        *[(contract(number), ACCEPTED) for number in (1, 2, 3)],
        (cancel(2), ACCEPTED),
        (contract(1), refused(12)),
        (contract(3), refused(12)),
        (contract(2), ACCEPTED),
    )
    yield "a new book has none", POOL, (contract(1), ACCEPTED), POOL, (cancel(1), refused(12)), (contract(1), ACCEPTED)


# ---- Terms (fault 13)


def parties():
    yield "in words", POOL, (
        contract(seller=0),
        "refused, fault 13 at 0, the contract's parties, hours, figures or terms do not fit.",
    )
    for count in (2, 5, 64):
        first = opened((1,), *[(2,)] * (count - 1))
        last = opened(*[(2,)] * (count - 1), (1,))
        for stranger in sorted({0, count + 1, 65, HUGE}):
            yield (
                f"unknown seller {stranger} of {count}",
                last,
                *both_sides({"seller": count}, {"seller": stranger}, buyer=1),
            )
            yield (
                f"unknown buyer {stranger} of {count}",
                first,
                *both_sides({"buyer": count}, {"buyer": stranger}, seller=1),
            )
    yield "both unknown", POOL, (contract(seller=0, buyer=0), refused(13)), (contract(seller=6, buyer=6), refused(13))
    for seller in (1, 2, 3):
        for buyer in (1, 2, 3):
            answer = ACCEPTED if (seller, buyer) in ((1, 2), (1, 3), (2, 3)) else refused(13)
            pool = opened((seller,), (buyer,))
            yield f"roles {seller} and {buyer}", pool, (contract(seller=1, buyer=2), answer)
        yield f"role {seller} with itself", opened((seller,)), (contract(seller=1, buyer=1), refused(13))


def hours():
    for days in (1, 2, 31):
        pool = opened((1,), (2,), days=days)
        last = 24 * days - 1
        inside = [(0, 0), (0, last), (last, last), (3, 4), (last - 1, last)]
        outside = [(1, 0), (last, 0), (last, last - 1), (4, 3)]
        outside += [(0, last + 1), (last, last + 1), (last + 1, last + 1), (last + 1, 0), (0, HUGE), (HUGE, HUGE), (HUGE, 0)]
        for answer, table in ((ACCEPTED, inside), (refused(13), outside)):
            for first, end in table:
                call = contract(buyer=2, first=first, last=end)
                yield f"{first} to {end} of {days} days", pool, (call, answer)


def figures():
    for outside in (2_000_001, HUGE):
        yield f"price {outside}", POOL, *both_sides({"price": 2_000_000}, {"price": outside})
    for label in ("peak", "medium", "base"):
        for outside in (MOST + 1, HUGE):
            yield f"{label} {outside}", POOL, *both_sides({label: MOST}, {label: outside})
    for outside in (MOST + 1, HUGE):
        yield f"margin {outside}", POOL, *both_sides({"margin": MOST}, {"margin": outside}, kind=2)
    yield "all at the limits", POOL, (contract(price=2_000_000, peak=MOST, medium=MOST, base=MOST), ACCEPTED)
    for name, number in (("market", 1), ("seller", 2), ("buyer", 3)):
        for place in (name, number):
            yield f"place {place}", POOL, (contract(place=place), ACCEPTED)


def blocks():
    for label in ("peak", "medium", "base"):
        yield f"{label} above capacity", POOL, *both_sides({label: 100}, {label: 101}, seller=2)
        sold = {"seller": 3, "buyer": 4}
        yield f"{label} above a distributor's capacity", POOL, *both_sides({label: MOST}, {label: MOST + 1}, **sold)
        nothing = {"seller": 5, "buyer": 4}
        yield f"{label} above no capacity", POOL, *both_sides({label: 0}, {label: 1}, **nothing)
    yield "at capacity in all bands", POOL, (contract(seller=2, peak=100, medium=100, base=100), ACCEPTED)
    for margin in (1, MOST):
        yield f"a margin of {margin}", POOL, *both_sides({"margin": 0}, {"margin": margin}, peak=5)


def shares():
    for label in ("peak", "medium", "base"):
        yield f"with {label}", POOL, *both_sides({label: 0}, {label: 1}, kind=2)
    for margin in (0, 1, MOST):
        yield f"a margin of {margin}", POOL, (contract(kind=2, margin=margin), ACCEPTED)
    yield "of a generator without capacity", opened((1,), (2,)), (contract(kind=2, buyer=2), ACCEPTED)
    yield "to a consumer", POOL, *both_sides({"buyer": 5}, {"buyer": 4}, kind=2, seller=1)
    yield "of a distributor", POOL, *both_sides({"seller": 2, "buyer": 3}, {"seller": 3, "buyer": 4}, kind=2)


def kinds():
    for kind in (0, 3, 4, 65, HUGE):
        yield f"kind {kind}", POOL, *both_sides({"kind": 1}, {"kind": kind})
        yield f"kind {kind} for the terms of a share", POOL, *both_sides({"kind": 2}, {"kind": kind}, margin=7)


# ---- A covered hour stands (fault 14)


def at(hour, **changed):
    """A quiet posting of the pool; `changed` has figures of the first line."""
    return post(line(**changed), *quiet(4), hour=hour), ACCEPTED


def covered():
    yield "in words", POOL, at(0), (contract(), "refused, fault 14 at 0, a covered hour stands.")
    table = [
        ("the hour alone", 8, 8, 8),
        ("the first of them", 8, 23, 8),
        ("the last of them", 0, 8, 8),
        ("one between", 0, 23, 8),
        ("the hour before", 0, 7, None),
        ("the hour after", 9, 23, None),
        ("the hour before alone", 7, 7, None),
        ("the hour after alone", 9, 9, None),
    ]
    for name, first, last, place in table:
        terms = {"first": first, "last": last}
        answer = ACCEPTED if place is None else refused(14, place)
        entry = ACCEPTED if place is None else refused(12)
        yield f"{name}, at entry", POOL, at(8), (contract(**terms), answer), (cancel(), entry)
        left = refused(12) if place is None else ACCEPTED
        yield f"{name}, at cancelling", POOL, *(
            (contract(**terms), ACCEPTED),
            at(8),
            (cancel(), answer),
            ("withdraw hour 8\n", ACCEPTED),
            (cancel(), left),
        )
    for first, last, place in ((0, 23, 5), (5, 20, 5), (6, 23, 8), (9, 23, 20), (9, 19, None), (0, 4, None)):
        answer = ACCEPTED if place is None else refused(14, place)
        terms = {"first": first, "last": last}
        standing_hours = at(20), at(8), at(5)
        yield f"the first of three, {first} to {last}, at entry", POOL, *standing_hours, (contract(**terms), answer)
        yield (
            f"the first of three, {first} to {last}, at cancelling",
            POOL,
            (contract(**terms), ACCEPTED),
            *standing_hours,
            (cancel(), answer),
        )
    long = opened((1,), (2,), days=31)
    for hour in (0, 743):
        call = post(*quiet(2), hour=hour), ACCEPTED
        whole = contract(buyer=2, first=0, last=743)
        yield f"hour {hour} of 31 days, at entry", long, call, (whole, refused(14, hour))
        yield f"hour {hour} of 31 days, at cancelling", long, (whole, ACCEPTED), call, (cancel(), refused(14, hour))
    yield "an hour withdrawn is free to enter", POOL, *(
        at(8),
        (contract(last=23), refused(14, 8)),
        ("withdraw hour 8\n", ACCEPTED),
        (contract(last=23), ACCEPTED),
    )
    yield "a refused posting does not stand", POOL, *(
        (contract(last=23), ACCEPTED),
        (post(*quiet(4)), refused(5)),
        (cancel(), ACCEPTED),
        (post(*quiet(4), hour=3), refused(5)),
        (contract(last=23), ACCEPTED),
    )
    yield "a covered hour may be corrected and withdrawn", POOL, *(
        (contract(last=23), ACCEPTED),
        at(3),
        at(3, injected=5),
        (cancel(), refused(14, 3)),
        ("withdraw hour 3\n", ACCEPTED),
        (cancel(), ACCEPTED),
    )
    yield "only its own hours count", POOL, *(
        (contract(1, first=0, last=7), ACCEPTED),
        (contract(2, first=8, last=15), ACCEPTED),
        (contract(3, first=15, last=23), ACCEPTED),
        at(8),
        (cancel(2), refused(14, 8)),
        (cancel(1), ACCEPTED),
        (cancel(3), ACCEPTED),
    )


def together():
    """Several faults at once."""
    busy = POOL, (contract(1, first=8, last=9), ACCEPTED), at(8)
    table = [
        ("12 before 13", contract(1, price=HUGE), 12, 0),
        ("12 before 14", contract(1, last=23), 12, 0),
        ("12 before 13 and 14", contract(0, margin=1, last=23), 12, 0),
        ("12 with all figures huge", contract(HUGE, **{label: HUGE for label in HUGE_LABELS}), 12, 0),
        ("13 with all figures huge", contract(2, **{label: HUGE for label in HUGE_LABELS}), 13, 0),
        ("13 before 14", contract(2, last=23, kind=3), 13, 0),
        ("13 before 14, hours", contract(2, last=24), 13, 0),
        ("13 before 14, hours out of order", contract(2, first=9, last=8), 13, 0),
        ("13 before 14, parties", contract(2, last=23, seller=3), 13, 0),
        ("13 before 14, terms", contract(2, last=23, seller=2, peak=101), 13, 0),
        ("14 alone", contract(2, last=23), 14, 8),
        ("cancelling, 12 for another number", cancel(2), 12, 0),
        ("cancelling, 14", cancel(1), 14, 8),
    ]
    for name, call, number, place in table:
        yield name, *busy, (call, refused(number, place))
    due = opened((1, 0, 1), (2,))
    yield "closing, 10 before 11", due, ("close\n", refused(10, 0))
    yield "closing, 10 before 11, the last hour", due, *every_hour(quiet(2), but=[23]), ("close\n", refused(10, 23))
    yield "closing, 11 alone", due, *every_hour(quiet(2)), ("close\n", refused(11, 0))


HUGE_LABELS = ("kind", "seller", "buyer", "first", "last", "price", "peak", "medium", "base", "margin")


# ---- What contracts bring


def shown(label, *points):
    """What these points look like, on this line of each statement in turn."""
    return [f"{label}: {'minus ' if p < 0 else ''}{abs(p) // 10_000}.{abs(p) % 10_000:04d} dollars." for p in points]


def sold(price=60_000, hour=8):
    lines = line(injected=1_000, factor=95_000), line(withdrawn=970, factor=102_000)
    return post(*lines, hour=hour, price=price), ACCEPTED


PAIR = opened((1, MOST), (2,))


def block(number=1, kwh=100, **changed):
    terms = dict(buyer=2, last=23, price=50_000, peak=kwh, medium=kwh, base=kwh)
    return contract(number, **{**terms, **changed}), ACCEPTED


def legs():
    yield "the month worked by hand", PAIR, block(), sold(), (
        "statements\n",
        ACCEPTED,
        "Statement of agent 1, generator, provisional.",
        "Market: 57.0000 dollars.",
        "Contracts: minus 1.0000 dollars.",
        "Overcost: 0.0000 dollars.",
        "Power: 0.0000 dollars.",
        "Balance: 56.0000 dollars.",
        "Injected: 1000 kilowatt-hours.",
        "Statement of agent 2, distributor, provisional.",
        "Market: minus 59.3640 dollars.",
        "Contracts: 1.0000 dollars.",
        "Balance: minus 58.3640 dollars.",
        "Withdrawn: 970 kilowatt-hours.",
        "Sum of balances: minus 2.3640 dollars.",
        "Residue of the standing hours: 2.3640 dollars.",
        "The sum of balances is minus the residue.",
    )
    for place, seller in (("market", -10_000), ("seller", -7_000), ("buyer", -11_200), (1, -10_000), (2, -7_000), (3, -11_200)):
        statements = "statements\n", ACCEPTED, *shown("Contracts", seller, -seller)
        yield f"place {place}", PAIR, block(place=place), sold(), statements
    for price, contract_price, seller in (
        (50, 0, -1),
        (49, 0, 0),
        (0, 50, 1),
        (0, 49, 0),
        (50, 50, 0),
        (50, 49, -1),
        (49, 50, 1),
        (150, 150, 0),
        (149, 150, 1),
    ):
        statements = "statements\n", ACCEPTED, *shown("Contracts", seller, -seller)
        name = f"1 kWh, the hour at {price}, the contract at {contract_price}"
        yield name, PAIR, block(kwh=1, price=contract_price), sold(price), statements
    for place, factor, seller in (("market", 100_000, 0), ("seller", 50_000, 4 * 10**10), ("buyer", 150_000, -4 * 10**10)):
        statements = "statements\n", ACCEPTED, *shown("Contracts", seller, -seller)
        lines = [line(factor=factor)] * 2
        dear = post(*lines, hour=0, price=2_000_000), ACCEPTED
        name = f"4,000,000 kWh at 2,000,000, factor {factor}"
        yield name, PAIR, block(kwh=MOST, price=2_000_000, place=place), dear, statements
    for hour, seller in ((7, 0), (8, -10_000), (9, -10_000), (10, 0)):
        statements = "statements\n", ACCEPTED, *shown("Contracts", seller, -seller)
        yield f"hours 8 to 9, and hour {hour}", PAIR, block(first=8, last=9), sold(hour=hour), statements
    yield "three hours of four are covered", PAIR, block(first=8, last=10), *(
        *[sold(hour=hour) for hour in (7, 8, 9, 10)],
        ("statements\n", ACCEPTED, *shown("Contracts", -30_000, 30_000)),
    )
    yield "nothing covers", PAIR, sold(), ("statements\n", ACCEPTED, *shown("Contracts", 0, 0))
    chain = opened((1, 500), (2, 500), (3,))
    yield "from a generator to a distributor to a consumer", chain, *(
        block(1, 300, price=20_000),
        block(2, 100, seller=2, buyer=3, price=40_000),
        block(3, 10, seller=1, buyer=3, price=30_000),
        (post(*quiet(3), price=30_000), ACCEPTED),
        ("statements\n", ACCEPTED, *shown("Contracts", -30_000, 40_000, -10_000)),
    )
    full = opened((1, MOST), *[(2,)] * 63)
    yield "64 contracts of one seller", full, *(
        *[block(number, 1, buyer=2 + number % 63, price=100 * number) for number in range(1, 65)],
        (post(*quiet(64), price=0), ACCEPTED),
        ("statements\n", ACCEPTED, *shown("Contracts", 2_080, -63, -65, -2)),
    )


def bands():
    """Each hour of a week: a block of 1 kWh at peak, 20 medium and 300 base, a dollar for each."""
    names = {"peak": 1, "medium": 20, "base": 300}
    for weekday in range(7):
        steps = []
        for day in range(8):
            for hour, workday, weekend in (
                (0, "base", "base"),
                (6, "base", "base"),
                (7, "medium", "base"),
                (16, "medium", "base"),
                (17, "peak", "peak"),
                (21, "peak", "peak"),
                (22, "base", "base"),
                (23, "base", "base"),
            ):
                name = weekend if (weekday + day) % 7 in (5, 6) else workday
                m = 24 * day + hour
                steps += [
                    (post(*quiet(2), hour=m, price=0), ACCEPTED),
                    ("statement 1\n", ACCEPTED, f"Contracts: {names[name]}.0000 dollars."),
                    (f"withdraw hour {m}\n", ACCEPTED),
                ]
        entry = contract(buyer=2, last=191, price=1_000_000, **names), ACCEPTED
        yield f"first weekday {weekday}", opened((1, 400), (2,), days=8, weekday=weekday), entry, *steps
    entry = contract(buyer=2, last=743, price=1_000_000, **names), ACCEPTED
    whole = [(post(*quiet(2), hour=m, price=0), ACCEPTED) for m in range(744)]
    # Of the 31 days from a Monday 23 are workdays: 155 hours of peak, 230 of medium and 359 of base.
    month = ("statement 1\n", ACCEPTED, f"Contracts: {155 + 230 * 20 + 359 * 300}.0000 dollars.")
    yield "a whole month", opened((1, 400), (2,), days=31), entry, *whole, month


def shared():
    """Shares of kind 2, a dollar for each kilowatt-hour."""
    table = [
        ("a third of 1,000", 0, MOST, 1_000, (300, 600), 333),
        ("less a margin", 33, MOST, 1_000, (300, 600), 300),
        ("less all of it", 333, MOST, 1_000, (300, 600), 0),
        ("less all of it but one", 332, MOST, 1_000, (300, 600), 1),
        ("less more than all", 400, MOST, 1_000, (300, 600), 0),
        ("less the largest margin", MOST, MOST, 1_000, (300, 600), 0),
        ("down to the capacity", 0, 299, 1_000, (300, 600), 299),
        ("just the capacity", 0, 333, 1_000, (300, 600), 333),
        ("the margin before the capacity", 33, 299, 1_000, (300, 600), 299),
        ("the margin below the capacity", 33, 301, 1_000, (300, 600), 300),
        ("the margin, far above the capacity", 100, 200, 1_000, (300, 600), 200),
        ("no capacity", 0, 0, 1_000, (300, 600), 0),
        ("the only distributor", 0, MOST, 1_000, (300, 0), 1_000),
        ("the buyer withdraws nothing", 0, MOST, 1_000, (0, 600), 0),
        ("no distributor withdraws", 0, MOST, 1_000, (0, 0), 0),
        ("nothing injected", 0, MOST, 0, (300, 600), 0),
        ("rounded down", 0, MOST, 2, (1, 2), 0),
        ("rounded down, just one", 0, MOST, 3, (1, 2), 1),
        ("all there is", 0, MOST, MOST, (MOST, 0), MOST),
        ("almost all there is", 0, MOST, MOST, (MOST - 1, 1), MOST - 1),
    ]
    for name, margin, capacity, injected, (buyer, other), kwh in table:
        pool = opened((1, capacity), (2,), (2,), (3,), (1,))
        entry = contract(kind=2, buyer=2, price=1_000_000, margin=margin), ACCEPTED
        # What a large consumer and a generator withdraw is no part of what all distributors do.
        beside = 0 if buyer + other == MOST else 100
        lines = line(injected=injected), line(withdrawn=buyer), line(withdrawn=other), line(withdrawn=beside), line(withdrawn=beside)
        dollars = shown("Contracts", kwh * 10_000, -kwh * 10_000, 0, 0, 0)
        yield name, pool, entry, (post(*lines, price=0), ACCEPTED), ("statements\n", ACCEPTED, *dollars)
    for place, factor_points in (("market", 333_000), ("seller", 316_350), ("buyer", 339_660)):
        pool = opened((1, 1_000), (2,), (2,))
        entry = contract(kind=2, buyer=2, place=place), ACCEPTED
        lines = line(injected=1_000, factor=95_000), line(withdrawn=300, factor=102_000), line(withdrawn=600)
        dollars = shown("Contracts", -factor_points, factor_points, 0)
        yield f"place {place}", pool, entry, (post(*lines, price=100_000), ACCEPTED), ("statements\n", ACCEPTED, *dollars)
    pool = opened((1, 1_000), (2,), (2,), (3,))
    lines = line(injected=1_000), line(withdrawn=300), line(withdrawn=700), line()
    yield "beside a block", pool, *(
        (contract(1, kind=2, buyer=2, price=1_000_000), ACCEPTED),
        (contract(2, kind=2, buyer=3, price=1_000_000, margin=50), ACCEPTED),
        (contract(3, buyer=4, price=1_000_000, base=7), ACCEPTED),
        (post(*lines, price=0), ACCEPTED),
        ("statements\n", ACCEPTED, *shown("Contracts", 9_570_000, -3_000_000, -6_500_000, -70_000)),
    )


# ---- What stands decides, whatever came before it


def standing():
    def ends(seller):
        return "statements\n", ACCEPTED, *shown("Contracts", seller, -seller), "The sum of balances is minus the residue."

    one = ends(-10_000)
    for number in (1, 2, 33, 64):
        yield f"under number {number}", PAIR, block(number), sold(), one
    yield "twice under two numbers", PAIR, block(7), block(64), sold(), ends(-20_000)
    yield "two that differ", PAIR, block(1), block(2, 50, place="seller"), sold(), ends(-13_500)
    yield "entered in another order", PAIR, block(2, 50, place="seller"), block(1), sold(), ends(-13_500)
    yield "one cancelled", PAIR, block(1), block(2), (cancel(1), ACCEPTED), sold(), one
    yield "cancelled and entered with another price", PAIR, *(
        block(price=70_000),
        (cancel(), ACCEPTED),
        block(),
        sold(),
        one,
    )
    yield "a refused entry brings nothing", PAIR, *(
        block(1),
        (contract(1, buyer=2, last=23, price=9, base=9), refused(12)),
        (contract(2, buyer=2, last=24, price=9, base=9), refused(13)),
        sold(),
        (contract(2, buyer=2, last=23, price=9, base=9), refused(14, 8)),
        one,
    )
    yield "a refused cancelling takes nothing", PAIR, block(), sold(), (cancel(), refused(14, 8)), (cancel(2), refused(12)), one
    yield "corrected with another price and factor, and put back", PAIR, *(
        block(place="buyer"),
        sold(),
        (post(line(factor=60_000), line(factor=140_000), hour=8, price=90_000), ACCEPTED),
        ends(50_000 - 126_000),
        sold(),
        ends(-11_200),
    )
    yield "withdrawn", PAIR, block(), sold(), ("withdraw hour 8\n", ACCEPTED), ends(0)
    yield "withdrawn and posted again", PAIR, block(), sold(), ("withdraw hour 8\n", ACCEPTED), sold(), one
    yield "withdrawn to cancel and to enter another", PAIR, *(
        block(1, 100),
        sold(),
        ("withdraw hour 8\n", ACCEPTED),
        (cancel(1), ACCEPTED),
        sold(),
        ends(0),
        ("withdraw hour 8\n", ACCEPTED),
        block(1, 100),
        sold(),
        one,
    )
    yield "entered after hours that it does not cover", PAIR, sold(hour=7), block(first=8), sold(hour=8), one
    trio = opened((1, 100), (2,), (2,))
    lines = line(injected=90), line(withdrawn=10), line(withdrawn=20)
    more = line(injected=90), line(withdrawn=20), line(withdrawn=20)
    entry = contract(kind=2, buyer=2, price=100), ACCEPTED
    yield "a share follows a correction", trio, entry, *(
        (post(*lines, price=0), ACCEPTED),
        ("statements\n", ACCEPTED, *shown("Contracts", 30, -30, 0)),
        (post(*more, price=0), ACCEPTED),
        ("statements\n", ACCEPTED, *shown("Contracts", 45, -45, 0)),
        (post(*lines, price=0), ACCEPTED),
        ("statements\n", ACCEPTED, *shown("Contracts", 30, -30, 0)),
    )


# ---- Closing


def every_hour(lines, days=1, but=(), price=0):
    """The same lines at every hour but some."""
    return [(post(*lines, hour=hour, price=price), ACCEPTED) for hour in range(24 * days) if hour not in but]


CLOSE = "close\n", ACCEPTED


def closing():
    one = opened((1,))
    yield "a month of one agent", one, *every_hour(quiet(1)), (
        "statement 1\n",
        ACCEPTED,
        "Statement of agent 1, generator, provisional.",
    ), CLOSE, ("statement 1\n", ACCEPTED, "Statement of agent 1, generator, final.", "Power: 0.0000 dollars.")
    carried = line(injected=1_000, factor=95_000), line(withdrawn=970, factor=102_000)
    yield "the month worked by hand, at every hour", PAIR, block(), *every_hour(carried, price=60_000), CLOSE, (
        "statements\n",
        ACCEPTED,
        "Statement of agent 1, generator, final.",
        *shown("Balance", 24 * 560_000),
        "Statement of agent 2, distributor, final.",
        *shown("Balance", 24 * -583_640),
        "Sum of balances: minus 56.7360 dollars.",
        "Residue of the standing hours: 56.7360 dollars.",
        "The sum of balances is minus the residue.",
    )
    yield "31 days", opened((3,), days=31), *every_hour([line(withdrawn=MOST)], days=31), CLOSE, (
        "statements\n",
        ACCEPTED,
        "Statement of agent 1, consumer, final.",
        "Withdrawn: 2976000000 kilowatt-hours.",
        "Peak: 4000000 kilowatt-hours in hour 0.",
    )
    roles = [(1, 0, 5), (2,), (3,)]
    yield "every role", opened(*roles), *every_hour([line(), line(withdrawn=1), line(withdrawn=2)]), CLOSE, (
        "statements\n",
        ACCEPTED,
        "Statement of agent 1, generator, final.",
        "Statement of agent 2, distributor, final.",
        "Statement of agent 3, consumer, final.",
    )


def missing():
    """Fault 10."""
    one = opened((1,))
    yield "in words", one, ("close\n", "refused, fault 10 at 0, an hour of the month is missing.")
    for but in ([0], [1], [12], [22], [23], [0, 23], [5, 6, 7], [22, 23]):
        gaps = [(post(*quiet(1), hour=hour), ACCEPTED) for hour in but]
        names = " and ".join(str(hour) for hour in but)
        refusals = []
        for place, gap in enumerate(gaps):
            refusals += [("close\n", refused(10, but[place])), gap]
        yield f"hours {names}", one, *every_hour(quiet(1), but=but), *refusals, CLOSE
    for hour in (0, 742, 743):
        whole = every_hour(quiet(1), days=31, but=[hour])
        yield f"hour {hour} of 31 days", opened((1,), days=31), *whole, ("close\n", refused(10, hour))
    yield "an hour withdrawn", one, *every_hour(quiet(1)), *(
        ("withdraw hour 9\n", ACCEPTED),
        ("close\n", refused(10, 9)),
        (post(*quiet(1), hour=9), ACCEPTED),
        CLOSE,
    )
    yield "a refused posting leaves its hour missing", one, *every_hour(quiet(1), but=[7]), *(
        (post(line(factor=1), hour=7), refused(5, 1)),
        ("close\n", refused(10, 7)),
    )
    yield "a refused closing leaves the month open", PAIR, block(), sold(), *(
        ("close\n", refused(10, 0)),
        (
            "statements\n",
            ACCEPTED,
            "Statement of agent 1, generator, provisional.",
            "Contracts: minus 1.0000 dollars.",
            "Power: 0.0000 dollars.",
        ),
        ("withdraw hour 8\n", ACCEPTED),
        (cancel(), ACCEPTED),
        block(),
        sold(hour=9),
    )


def power():
    """Power at closing, and fault 11."""
    due = opened((1, 0, 1), (2,), (3,))
    yield "in words", due, *every_hour(quiet(3)), (
        "close\n",
        "refused, fault 11 at 0, power is due and no withdrawn energy carries it.",
    )
    yield "a generator's withdrawn energy carries none", due, *every_hour([line(withdrawn=7), line(), line()]), *(
        ("close\n", refused(11)),
        ("statements\n", ACCEPTED, "Statement of agent 1, generator, provisional.", *shown("Power", 0, 0, 0)),
        (post(line(), line(), line(withdrawn=1), hour=23, price=0), ACCEPTED),
        CLOSE,
        (
            "statements\n",
            ACCEPTED,
            "Statement of agent 1, generator, final.",
            *shown("Power", 57_000, 0, -57_000),
            "Sum of balances: 0.0000 dollars.",
        ),
    )
    yield "a distributor in one hour carries all", due, *every_hour(quiet(3), but=[11]), *(
        (post(line(), line(withdrawn=1), line(), hour=11), ACCEPTED),
        CLOSE,
        ("statements\n", ACCEPTED, *shown("Power", 57_000, -57_000, 0)),
    )
    yield "nobody has power and nobody withdraws", opened((1,), (2,), (3,)), *every_hour(quiet(3)), CLOSE, (
        "statements\n",
        ACCEPTED,
        "Statement of agent 1, generator, final.",
        *shown("Power", 0, 0, 0),
    )
    yield "only generators without power", opened((1,), (1,)), *every_hour(quiet(2)), CLOSE
    yield "only generators with power", opened((1,), (1, 0, 1)), *every_hour(quiet(2)), ("close\n", refused(11))
    table = [
        # 57,000 over 24, 24 and 120.
        ("shared over three", [(1, 0, 1), (2,), (3,), (2,)], [0, 1, 1, 5], [57_000, -8_142, -8_143, -40_715]),
        # Over 24, 0, 24 and 120, the generator's 48 aside.
        (
            "a weight of nothing between, and a generator's energy aside",
            [(2,), (3,), (1, 0, 1), (3,), (2,)],
            [1, 0, 2, 1, 5],
            [-8_142, 0, 57_000, -8_143, -40_715],
        ),
        # 171,000 over 24, 24 and 24 x 5: one sum of two generators.
        (
            "two generators are shared as one sum",
            [(1, 0, 1), (2,), (1, 0, 2), (3,), (3,)],
            [0, 1, 0, 1, 5],
            [57_000, -24_428, 114_000, -24_429, -122_143],
        ),
        ("no power line without weight", [(1, 0, 3), (1,), (2,), (3,)], [0, 0, 0, 1], [171_000, 0, 0, -171_000]),
        (
            "power at the limit",
            [(1, 0, 1_000_000), (2,)],
            [0, 1],
            [57_000_000_000, -57_000_000_000],
        ),
    ]
    for name, agents, withdrawn, points in table:
        lines = [line(withdrawn=kwh) for kwh in withdrawn]
        final = "statements\n", ACCEPTED, *shown("Power", *points), "Sum of balances: 0.0000 dollars."
        yield name, opened(*agents), *every_hour(lines), CLOSE, final
    # The month's energies are the weights, not an hour's: 6 kWh and 18 kWh of 24.
    early, late = [line(), line(withdrawn=1), line()], [line(), line(), line(withdrawn=1)]
    yield "shared over the month", due, *every_hour(early, but=range(6, 24)), *every_hour(late, but=range(6)), CLOSE, (
        "statements\n",
        ACCEPTED,
        *shown("Power", 57_000, -14_250, -42_750),
    )
    yield "shared over what stands in the end", due, *every_hour([line(), line(withdrawn=1), line()]), *(
        *every_hour([line(), line(withdrawn=1), line(withdrawn=1)]),
        CLOSE,
        ("statements\n", ACCEPTED, *shown("Power", 57_000, -28_500, -28_500)),
    )
    crowd = opened(*[(1, 0, 1_000_000)] * 63, (2,))
    every = [*quiet(63), line(withdrawn=MOST)]
    yield "63 generators at the limit", crowd, *every_hour(every), CLOSE, (
        "statements\n",
        ACCEPTED,
        *shown("Power", *[57_000_000_000] * 63, -63 * 57_000_000_000),
    )


def closed():
    lines = line(injected=1_000), line(withdrawn=1_000)
    month = PAIR, block(), *every_hour(lines, price=60_000), CLOSE
    skipped = [
        ("a posting", post(*lines, hour=8)),
        ("a posting outside the month", post(*lines, hour=24)),
        ("a posting without lines", post(hour=0)),
        ("a withdrawal", "withdraw hour 8\n"),
        ("a withdrawal outside the month", "withdraw hour 24\n"),
        ("an entry", contract(2, buyer=2)),
        ("an entry under a number outside 1 to 64", contract(0, buyer=2)),
        ("an entry under a number that is taken", contract(1, buyer=2)),
        ("an entry of wrong terms", contract(2, buyer=2, kind=3)),
        ("a cancelling", cancel(1)),
        ("a cancelling of nothing", cancel(2)),
        ("a closing", "close\n"),
    ]
    after = "statements\n", ACCEPTED, "Statement of agent 1, generator, final.", *shown("Contracts", -240_000, 240_000)
    for name, call in skipped:
        yield f"{name} is skipped", *month, (call, CLOSED), after
    yield "every call in turn is skipped", *month, *[(call, CLOSED) for _, call in skipped], after
    yield "statements of a closed month", *month, *(
        ("statement 2\n", ACCEPTED, "Statement of agent 2, distributor, final."),
        ("statement 0\n", refused(3)),
        ("statement 3\n", refused(3)),
        ("statement 1\n", ACCEPTED, "Statement of agent 1, generator, final."),
    )
    yield "a new book is open and empty", *month, PAIR, *(
        ("statement 1\n", ACCEPTED, "Statement of agent 1, generator, provisional.", "Market: 0.0000 dollars."),
        ("close\n", refused(10, 0)),
        (cancel(1), refused(12)),
        block(),
        sold(),
        ("statement 1\n", ACCEPTED, "Statement of agent 1, generator, provisional.", "Contracts: minus 1.0000 dollars."),
    )
    wrong = opened((9,))[0], refused(3)
    yield "a refused opening lets the closed book go", *month, wrong, ("statement 1\n", NO_BOOK), ("close\n", NO_BOOK)


def no_book():
    every = ((contract(), NO_BOOK), (cancel(), NO_BOOK), ("close\n", NO_BOOK), (contract(0), NO_BOOK))
    yield "before any opening", *every, POOL, (contract(), ACCEPTED)
    yield "after a refused opening", (opened((9,))[0], refused(3)), *every, POOL, (cancel(), refused(12))
