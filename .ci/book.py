"""A model of the month's book, made apart from the program, in Python's unbounded integers.

It is written from docs/RULES.md and docs/FAULTS.md alone. It keeps no accounts: it remembers the contracts and the
postings that stand, and whether the month is closed, and works every statement from them anew.
"""

from itertools import accumulate
from typing import NamedTuple

from packets import NoPacket, read_hour_packet

# ---- Limits

AGENTS = 64
DAYS = 31
CONTRACTS = 64
HOURLY_KWH = 4_000_000
POWER = 1_000_000
PRICE = 2_000_000
FACTORS = range(50_000, 150_000 + 1)
POINTS_PER_KW = 57_000

GENERATOR, DISTRIBUTOR, CONSUMER = 1, 2, 3
NORMAL, OBLIGATED, FORCED = 1, 2, 3
MARKET_BAR, SELLERS_NODE, BUYERS_NODE = 1, 2, 3
BLOCK, SHARE = 1, 2

# The roles of seller and buyer that go together.
PARTIES = [(GENERATOR, DISTRIBUTOR), (GENERATOR, CONSUMER), (DISTRIBUTOR, CONSUMER)]


class Agent(NamedTuple):
    role: int
    capacity: int
    power: int


class Line(NamedTuple):
    kind: int  # the class
    cause: int
    injected: int
    withdrawn: int
    gross: int
    factor: int
    cost: int


class Posting(NamedTuple):
    price: int
    lines: list


class Contract(NamedTuple):
    kind: int
    seller: int
    buyer: int
    place: int
    first: int
    last: int
    price: int
    peak: int
    medium: int
    base: int
    margin: int

    def covers(self, hour):
        return self.first <= hour <= self.last


class Statement(NamedTuple):
    market: int
    contracts: int
    overcost: int
    power: int
    injected: int
    withdrawn: int
    peak: tuple  # kilowatt-hours, and their hour

    @property
    def balance(self):
        return self.market + self.contracts + self.overcost + self.power


class Refused(Exception):
    """A call meets a fault: its number and its place."""


class MonthClosed(Exception):
    """A call that can only be made in an open month."""


def refuse_first(faults):
    """Of the faults met, answers the smallest number, and of one number the first place."""
    if faults:
        raise Refused(*min(faults))


# ---- Amounts and shares


def amount(kwh, factor, price):
    return (kwh * factor * price + 5_000_000) // 10_000_000


def cost_amount(kwh, cost):
    return (kwh * cost + 50) // 100


def share(points, weights):
    """The part of the points that each weight carries."""
    if points == 0:
        return [0] * len(weights)
    total = sum(weights)
    whole, rest = divmod(points, total)
    reached = [rest * upto // total for upto in accumulate(weights, initial=0)]
    return [whole * w + reached[i + 1] - reached[i] for i, w in enumerate(weights)]


def excess(line, price):
    if line.kind == NORMAL or line.cost < price:
        return 0
    return max(0, cost_amount(line.gross, line.cost) - amount(line.injected, line.factor, price))


# ---- Bands and contracts


def band(weekday, hour):
    """The band of an hour of the week, as the name of a contract's quantity."""
    if 17 <= hour <= 21:
        return "peak"
    return "medium" if weekday < 5 and 7 <= hour <= 16 else "base"


def takes(contract, seller, buyer):
    """Whether blocks and shares take these terms between these parties."""
    quantities = contract.peak, contract.medium, contract.base
    if contract.kind == BLOCK:
        return contract.margin == 0 and max(quantities) <= seller.capacity
    if contract.kind == SHARE:
        return max(quantities) == 0 and (seller.role, buyer.role) == (GENERATOR, DISTRIBUTOR)
    return False


def quantity(contract, hours_band, capacity, injected, withdrawn, by_distributors):
    """The kilowatt-hours of an hour: what the seller injects, what the buyer withdraws, and all distributors."""
    if contract.kind == BLOCK:
        kwh = getattr(contract, hours_band)
    else:
        part = injected * withdrawn // by_distributors if by_distributors else 0
        kwh = max(0, part - contract.margin)
    return min(kwh, capacity)


# ---- The book


class Book:
    def __init__(self, days, weekday, agents):
        bad = not 1 <= len(agents) <= AGENTS or not 1 <= days <= DAYS or weekday > 6
        for agent in agents:
            bad = bad or agent.role not in (GENERATOR, DISTRIBUTOR, CONSUMER)
            bad = bad or agent.capacity > HOURLY_KWH or agent.power > POWER
            bad = bad or (agent.role != GENERATOR and agent.power != 0)
        refuse_first([(3, 0)] if bad else [])
        self.opening = days, weekday, agents
        self.agents = agents
        self.weekday = weekday
        self.hours = 24 * days
        self.contracts = {}
        self.standing = {}
        self.closed = False

    def alike(self):
        """Another book that is opened alike."""
        return Book(*self.opening)

    # ---- calls

    def only_open(self):
        if self.closed:
            raise MonthClosed

    def post(self, hour, posting):
        self.only_open()
        faults = [(4, hour)] if hour >= self.hours else []
        if len(posting.lines) != len(self.agents) or posting.price > PRICE:
            faults.append((5, 0))
        for place, line in enumerate(posting.lines, start=1):
            if self.beyond_limit(line):
                faults.append((5, place))
        for place, (line, agent) in enumerate(zip(posting.lines, self.agents), start=1):
            if self.breaks_rule(line, agent):
                faults.append((6, place))
        if self.together(posting, "injected") > HOURLY_KWH or self.together(posting, "withdrawn") > HOURLY_KWH:
            faults.append((7, 0))
        if not faults and self.obligated(posting) > 0 and sum(self.weights(posting)) == 0:
            faults.append((8, 0))
        refuse_first(faults)
        self.standing[hour] = posting

    def post_packet(self, packet):
        """Posts the hour that a packet carries."""
        self.only_open()
        try:
            hour, price, lines = read_hour_packet(packet)
        except NoPacket as reason:
            raise Refused(17, *reason.args) from None
        self.post(hour, Posting(price, [Line(*figures) for figures in lines]))

    def withdraw(self, hour):
        self.only_open()
        if hour >= self.hours:
            refuse_first([(4, hour)])
        if hour not in self.standing:
            refuse_first([(9, hour)])
        del self.standing[hour]

    def enter(self, number, contract):
        self.only_open()
        faults = [] if 1 <= number <= CONTRACTS and number not in self.contracts else [(12, 0)]
        if not self.may_stand(contract):
            faults.append((13, 0))
        refuse_first(faults + self.covered(contract))
        self.contracts[number] = contract

    def cancel(self, number):
        self.only_open()
        if number not in self.contracts:
            refuse_first([(12, 0)])
        refuse_first(self.covered(self.contracts[number]))
        del self.contracts[number]

    def close(self):
        self.only_open()
        faults = [(10, hour) for hour in range(self.hours) if hour not in self.standing]
        if sum(self.power_credits()) > 0 and sum(self.power_weights()) == 0:
            faults.append((11, 0))
        refuse_first(faults)
        self.closed = True

    def statement(self, agent):
        if not 1 <= agent <= len(self.agents):
            refuse_first([(3, 0)])
        return self.statements()[agent - 1]

    # ---- what the calls ask

    @staticmethod
    def beyond_limit(line):
        energies = max(line.injected, line.withdrawn, line.gross)
        return energies > HOURLY_KWH or line.factor not in FACTORS or line.cost > PRICE

    def breaks_rule(self, line, agent):
        if line.kind == NORMAL:
            return line.cause != 0 or line.gross != 0 or line.cost != 0
        if line.kind not in (OBLIGATED, FORCED) or agent.role != GENERATOR or line.gross < line.injected:
            return True
        if line.kind == FORCED:
            return not 1 <= line.cause <= len(self.agents)
        return line.cause != 0

    @staticmethod
    def together(posting, energy):
        return sum(getattr(line, energy) for line in posting.lines)

    @staticmethod
    def obligated(posting):
        """The excess of the obligated lines of an hour, together."""
        return sum(excess(line, posting.price) for line in posting.lines if line.kind == OBLIGATED)

    def weights(self, posting):
        """What each agent carries obligated excess by; a generator carries none."""
        return [0 if a.role == GENERATOR else line.withdrawn for a, line in zip(self.agents, posting.lines)]

    def may_stand(self, contract):
        """Whether this book can have the contract, under some number."""
        if not all(1 <= party <= len(self.agents) for party in (contract.seller, contract.buyer)):
            return False
        seller, buyer = self.agents[contract.seller - 1], self.agents[contract.buyer - 1]
        if (seller.role, buyer.role) not in PARTIES or not contract.first <= contract.last < self.hours:
            return False
        if contract.price > PRICE or max(contract.peak, contract.medium, contract.base, contract.margin) > HOURLY_KWH:
            return False
        return takes(contract, seller, buyer)

    def covered(self, contract):
        """A fault for each standing hour that the contract covers."""
        return [(14, hour) for hour in self.standing if contract.covers(hour)]

    def power_credits(self):
        return [POINTS_PER_KW * agent.power for agent in self.agents]

    def power_weights(self):
        """What each agent carries power by: its withdrawn energy of the month; a generator carries none."""
        hourly = [self.weights(posting) for posting in self.standing.values()]
        return [sum(weights) for weights in zip(*hourly)] or [0] * len(self.agents)

    # ---- worked from what stands

    @staticmethod
    def market_lines(posting):
        return [
            amount(line.injected, line.factor, posting.price) - amount(line.withdrawn, line.factor, posting.price)
            for line in posting.lines
        ]

    def contract_lines(self, hour, posting):
        hours_band = band((self.weekday + hour // 24) % 7, hour % 24)
        by_distributors = sum(
            line.withdrawn for agent, line in zip(self.agents, posting.lines) if agent.role == DISTRIBUTOR
        )
        lines = [0] * len(self.agents)
        for contract in self.contracts.values():
            if contract.covers(hour):
                seller, buyer = posting.lines[contract.seller - 1], posting.lines[contract.buyer - 1]
                capacity = self.agents[contract.seller - 1].capacity
                kwh = quantity(contract, hours_band, capacity, seller.injected, buyer.withdrawn, by_distributors)
                factors = {MARKET_BAR: 100_000, SELLERS_NODE: seller.factor, BUYERS_NODE: buyer.factor}
                points = cost_amount(kwh, contract.price) - amount(kwh, factors[contract.place], posting.price)
                lines[contract.seller - 1] += points
                lines[contract.buyer - 1] -= points
        return lines

    def overcost_lines(self, posting):
        lines = [-part for part in share(self.obligated(posting), self.weights(posting))]
        for place, line in enumerate(posting.lines):
            lines[place] += excess(line, posting.price)
            if line.kind == FORCED:
                lines[line.cause - 1] -= excess(line, posting.price)
        return lines

    def power_lines(self):
        if not self.closed:
            return [0] * len(self.agents)
        credits = self.power_credits()
        return [credit - part for credit, part in zip(credits, share(sum(credits), self.power_weights()))]

    def statements(self):
        """Every agent's statement."""
        count = len(self.agents)
        market, contracts, overcost = [0] * count, [0] * count, [0] * count
        injected, withdrawn = [0] * count, [0] * count
        peak = [(0, 0)] * count
        for hour, posting in sorted(self.standing.items()):
            by_line = (market, self.market_lines(posting)), (overcost, self.overcost_lines(posting))
            for lines, hourly in (*by_line, (contracts, self.contract_lines(hour, posting))):
                for a, points in enumerate(hourly):
                    lines[a] += points
            for a, line in enumerate(posting.lines):
                injected[a] += line.injected
                withdrawn[a] += line.withdrawn
                if line.withdrawn > peak[a][0]:
                    peak[a] = (line.withdrawn, hour)
        columns = market, contracts, overcost, self.power_lines(), injected, withdrawn, peak
        return [Statement(*figures) for figures in zip(*columns)]

    def residue(self):
        return sum(
            amount(line.withdrawn, line.factor, posting.price) - amount(line.injected, line.factor, posting.price)
            for posting in self.standing.values()
            for line in posting.lines
        )
