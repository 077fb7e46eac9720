"""Journals drawn at random, always the same ones: contracts, corrections, withdrawals, closings, refusals and statements mixed."""

import random

MOST = 4_000_000
HUGE = 4_294_967_295
SMALL_JOURNALS = 150
CLOSED_JOURNALS = 60
LARGE_JOURNALS = 6

# The roles of seller and buyer that go together.
PARTIES = [(1, 2), (1, 3), (2, 3)]


def every_journal():
    for seed in range(SMALL_JOURNALS):
        rng = random.Random(seed)
        count = rng.choice([1, 2, 2, 3, 3, 4, 5, 6, 8])
        days = rng.choice([1, 1, 1, 2, 3, 31])
        yield f"drawn {seed}", every_line(journal(rng, count, days, rng.randint(5, 40)))
    for seed in range(CLOSED_JOURNALS):
        yield f"drawn to be closed {seed}", every_line(closed_month(random.Random(3000 + seed)))
    for seed in range(LARGE_JOURNALS):
        rng = random.Random(1000 + seed)
        yield f"drawn large {seed}", every_line(journal(rng, rng.randint(40, 64), rng.randint(20, 31), 60))
    yield "drawn whole month", every_line(whole_month(random.Random(2000)))


# Beginnings of lines that drawn journals must print, each in at least three of them, so that nothing of it goes untried.
REACHED = [
    r"Line \d+, contract \d+: accepted",
    *[rf"Line \d+, contract \d+: refused, fault {fault} at 0," for fault in (12, 13)],
    r"Line \d+, contract \d+: refused, fault 14 at [1-9]",
    r"Line \d+, contract \d+: skipped, the month is closed",
    r"Line \d+, cancel \d+: accepted",
    r"Line \d+, cancel \d+: refused, fault 12 at 0,",
    r"Line \d+, cancel \d+: refused, fault 14 at [1-9]",
    r"Line \d+, cancel \d+: skipped, the month is closed",
    r"Line \d+, post hour \d+: accepted",
    *[rf"Line \d+, post hour \d+: refused, fault {fault} at" for fault in (4, 5, 6, 7, 8)],
    r"Line \d+, post hour \d+: skipped, the month is closed",
    r"Line \d+, withdraw hour \d+: accepted",
    *[rf"Line \d+, withdraw hour \d+: refused, fault {fault} at" for fault in (4, 9)],
    r"Line \d+, withdraw hour \d+: skipped, the month is closed",
    r"Line \d+, close: accepted",
    r"Line \d+, close: refused, fault 10 at [1-9]",
    r"Line \d+, close: refused, fault 11 at 0,",
    r"Line \d+, close: skipped, the month is closed",
    r"Line \d+, statement \d+: refused, fault 3 at 0,",
    r"Statement of agent \d+, \w+, provisional",
    r"Statement of agent \d+, \w+, final",
    *[rf"{line}: {sign}(?!0\.0000)\d" for line in ("Market", "Contracts", "Overcost", "Power") for sign in ("", "minus ")],
]


def every_line(lines):
    return "\n".join(lines) + "\n"


# ---- Whole journals


def journal(rng, count, days, calls):
    roles = [rng.choice([1, 1, 2, 2, 3]) for _ in range(count)]
    text, capacities = opening(rng, roles, days)
    month = Month(rng, roles, capacities, 24 * days)
    for number in range(1, rng.choice([0, 2, 4, 8]) + 1):
        text += month.entry(number, faults=rng.choice([0, 0, 0, 1]))
    hours = [rng.randrange(24 * days) for _ in range(rng.randint(1, 8))]
    for _ in range(calls):
        text += month.call(rng.choice(hours))
    if rng.random() < 0.15:
        again, capacities = opening(rng, roles, days)
        month = Month(rng, roles, capacities, 24 * days)
        text += again + month.entry(1) + month.posting(0) + month.call(1)
    return text + ["statements"]


def closed_month(rng):
    """A day whose hours are posted in some order, under contracts, and which then is closed if nothing hinders it."""
    roles = [rng.choice([1, 1, 2, 2, 3]) for _ in range(rng.choice([1, 2, 3, 4, 6, 9]))]
    text, capacities = opening(rng, roles, 1)
    month = Month(rng, roles, capacities, 24, idle=rng.random() < 0.2, carried=True)
    for number in range(1, rng.randint(0, 6) + 1):
        text += month.entry(number)
    hours = list(range(24))
    rng.shuffle(hours)
    for hour in hours:
        text += month.posting(hour)
        if rng.random() < 0.2:
            text += month.call(rng.choice(hours))
    if rng.random() < 0.3:
        text.append("close")
    text += [line for hour in hours[-8:] for line in month.posting(hour)]
    text += ["statements", "close"]
    for _ in range(rng.randint(0, 6)):
        text += month.call(rng.choice(hours))
    return text + ["statements"]


def whole_month(rng):
    """Sixty-four agents, sixty-four contracts and every hour of thirty-one days, some corrected, nothing refused, and closed."""
    roles = [1] * 20 + [2] * 30 + [3] * 14
    rng.shuffle(roles)
    text, capacities = opening(rng, roles, 31)
    month = Month(rng, roles, capacities, 744)
    for number in range(1, 65):
        text += month.entry(number)
    for hour in list(range(744)) + [rng.randrange(744) for _ in range(20)]:
        text += month.posting(hour)
    return text + ["close", "statements"]


def opening(rng, roles, days):
    """The lines of an opening, and the capacities of its agents."""
    text = [f"open agents {len(roles)} days {days} weekday {rng.randrange(7)}"]
    capacities = [rng.choice([0, rng.randint(1, 200), rng.randint(0, 60_000), rng.randint(0, MOST), MOST]) for _ in roles]
    powered = rng.random() < 0.8
    for place, (role, capacity) in enumerate(zip(roles, capacities), start=1):
        power = rng.choice([1, rng.randint(0, 1_000_000)]) if role == 1 and powered else 0
        text.append(f"agent {place} role {role} capacity {capacity} power {power}")
    return text, capacities


# ---- Calls


class Month:
    """What is drawn from: the roles and capacities of the agents, and how many hours there are.

    In an idle month only generators withdraw. Where all is carried, no line is obligated unless somebody carries its excess.
    """

    def __init__(self, rng, roles, capacities, hours, idle=False, carried=False):
        self.rng = rng
        self.roles = roles
        self.capacities = capacities
        self.hours = hours
        self.idle = idle
        self.carried = carried

    def call(self, hour):
        rng = self.rng
        luck = rng.random()
        if luck < 0.52:
            return self.posting(hour, faults=rng.choice([0, 0, 0, 0, 1, 1, 2, 3]))
        if luck < 0.67:
            return [f"withdraw hour {rng.choice([hour, hour, rng.randrange(self.hours + 2)])}"]
        if luck < 0.79:
            return self.entry(self.number(), faults=rng.choice([0, 0, 0, 1, 2]))
        if luck < 0.87:
            return [f"cancel {self.number()}"]
        if luck < 0.90:
            return ["close"]
        if luck < 0.97:
            return [f"statement {rng.randint(0, len(self.roles) + 1)}"]
        return ["statements"]

    def number(self):
        return self.rng.choice([1, 2, 3, 4, 5, 6, 7, 8, self.rng.randint(0, 65)])

    def posting(self, hour, faults=0):
        post = {"hour": hour, "price": price(self.rng)}
        lines = drawn_lines(self.rng, self.roles, post["price"])
        carriers = [line for role, line in zip(self.roles, lines) if role != 1]
        for line in carriers if self.idle else []:
            line["withdrawn"] = 0
        if self.carried and not any(line["withdrawn"] for line in carriers):
            for place, line in enumerate(lines, start=1):
                if line["class"] == 2:
                    line |= {"class": 3, "cause": place}
        for _ in range(faults):
            spoil(self.rng, post, lines, self.hours)
        return [words("post", post), *[words("line", line) for line in lines]]

    def entry(self, number, faults=0):
        terms = self.terms()
        for _ in range(faults):
            self.spoil_terms(terms)
        return [words(f"contract {number}", terms)]

    def terms(self):
        """The terms of a block or a share that may stand, if two agents go together."""
        rng = self.rng
        count = len(self.roles)
        pairs = [
            (seller, buyer)
            for seller in range(1, count + 1)
            for buyer in range(1, count + 1)
            if (self.roles[seller - 1], self.roles[buyer - 1]) in PARTIES
        ]
        seller, buyer = rng.choice(pairs or [(1, count)])
        first, last = sorted((rng.randrange(self.hours), rng.choice([self.hours - 1, rng.randrange(self.hours)])))
        terms = {"kind": 1, "seller": seller, "buyer": buyer, "place": rng.choice(["market", "seller", "buyer"])}
        terms |= {"first": first, "last": last, "price": price(rng), "peak": 0, "medium": 0, "base": 0, "margin": 0}
        if (self.roles[seller - 1], self.roles[buyer - 1]) == (1, 2) and rng.random() < 0.5:
            terms["kind"] = 2
            terms["margin"] = rng.choice([0, rng.randint(0, 5), rng.randint(0, 20_000), rng.randint(0, MOST)])
        else:
            capacity = self.capacities[seller - 1]
            for label in ("peak", "medium", "base"):
                terms[label] = rng.choice([0, 1, rng.randint(0, 300), rng.randint(0, capacity), capacity])
                terms[label] = min(terms[label], capacity)
        return terms

    def spoil_terms(self, terms):
        """Changes one figure of a contract, mostly to one that is outside a limit or breaks a rule."""
        rng = self.rng
        agents = [0, len(self.roles), len(self.roles) + 1, rng.randint(1, len(self.roles))]
        hours = [0, self.hours - 1, self.hours, HUGE, rng.randrange(self.hours)]
        quantities = [0, 1, self.capacities[min(terms["seller"], len(self.roles)) - 1] + 1, MOST, MOST + 1]
        label, figures = rng.choice(
            [
                ("kind", [0, 1, 2, 3, HUGE]),
                ("seller", agents),
                ("buyer", agents),
                ("first", hours),
                ("last", hours),
                ("price", [2_000_000, 2_000_001]),
                ("peak", quantities),
                ("medium", quantities),
                ("base", quantities),
                ("margin", [0, 1, MOST, MOST + 1]),
            ]
        )
        terms[label] = rng.choice(figures)


def words(call, figures):
    return call + "".join(f" {label} {figure}" for label, figure in figures.items())


def price(rng):
    return rng.choice([rng.randint(0, 100), rng.randint(20_000, 90_000), rng.randint(0, 2_000_000), 0, 2_000_000])


def energies(rng, count):
    """As many energies, together at most the limit; the last way reaches it."""
    way = rng.randrange(4)
    if way == 0:
        return [rng.randint(0, 3) for _ in range(count)]
    if way < 3:
        return [rng.choice([0, rng.randint(0, 60_000)]) for _ in range(count)]
    cuts = sorted(rng.randint(0, MOST) for _ in range(count - 1))
    return [high - low for low, high in zip([0] + cuts, cuts + [MOST])]


def drawn_lines(rng, roles, hourly_price):
    lines = []
    for role, injected, withdrawn in zip(roles, energies(rng, len(roles)), energies(rng, len(roles))):
        line = {"class": 1, "cause": 0, "injected": injected, "withdrawn": withdrawn, "gross": 0}
        line["factor"] = rng.choice([100_000, rng.randint(90_000, 110_000), rng.randint(50_000, 150_000)])
        line["cost"] = 0
        if role == 1 and rng.random() < 0.5:
            line["class"] = rng.choice([2, 3])
            line["cause"] = rng.randint(1, len(roles)) if line["class"] == 3 else 0
            line["gross"] = min(MOST, injected + rng.choice([0, rng.randint(0, 5), rng.randint(0, 5_000)]))
            near = hourly_price + rng.choice([-1, 0, 1, rng.randint(0, 80_000)])
            line["cost"] = max(0, min(2_000_000, near))
        lines.append(line)
    return lines


def spoil(rng, post, lines, hours):
    """Changes one figure of a posting, mostly to one that is outside a limit or breaks a rule."""
    way = rng.randrange(12)
    if way == 0:
        post["hour"] = hours + rng.choice([0, 1, 1_000])
    elif way == 1:
        post["price"] = rng.choice([2_000_001, HUGE])
    elif way == 2 and lines:
        lines.pop(rng.randrange(len(lines)))
    elif way == 3 and lines:
        lines.append(dict(rng.choice(lines)))
    elif lines:
        label, figures = rng.choice(
            [
                ("class", [0, 1, 2, 3, 4]),
                ("cause", [0, 1, len(lines), len(lines) + 1, 65]),
                ("injected", [MOST, MOST + 1, HUGE]),
                ("withdrawn", [0, MOST, MOST + 1]),
                ("gross", [0, 1, MOST, MOST + 1]),
                ("factor", [0, 49_999, 50_000, 150_000, 150_001]),
                ("cost", [0, 1, 2_000_000, 2_000_001]),
            ]
        )
        rng.choice(lines)[label] = rng.choice(figures)
