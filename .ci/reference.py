"""What the program prints, from the model of the month's book.

    python3 .ci/reference.py settle FILE
    python3 .ci/reference.py audit FILE       (or - for standard input)

It reads a journal and prints what `gibzurg` should print, written from docs/JOURNAL.md alone. The rules are in book.py.
"""

import string
import sys
from typing import NamedTuple

from book import Agent, Book, Contract, Line, MonthClosed, Posting, Refused

WEEKDAYS = dict(monday=0, tuesday=1, wednesday=2, thursday=3, friday=4, saturday=5, sunday=6)
ROLES = dict(generator=1, distributor=2, consumer=3)
CLASSES = dict(normal=1, obligated=2, forced=3)
PLACES = dict(market=1, seller=2, buyer=3)

FAULTS = {
    1: "memory of the wrong size",
    2: "a stored figure is outside its limit",
    3: "a figure of the opening or the statement's agent is outside the book's limits",
    4: "the hour is outside the month",
    5: "the line count, the price or a figure of the line is outside its limit",
    6: "the line breaks a rule on class, cause, gross or cost",
    7: "all injected or all withdrawn energy together is above the limit",
    8: "obligated excess and no withdrawn energy carries it",
    9: "the hour is free",
    10: "an hour of the month is missing",
    11: "power is due and no withdrawn energy carries it",
    12: "the contract number is outside 1 to 64, taken or not standing",
    13: "the contract's parties, hours, figures or terms do not fit",
    14: "a covered hour stands",
    17: "no number that the format allows starts at byte {place}, or bytes are left over from there on",
}

# ---- What is printed of statements


def dollars(points):
    sign = "minus " if points < 0 else ""
    return f"{sign}{abs(points) // 10_000}.{abs(points) % 10_000:04d} dollars"


def show_statement(book, agent, statement):
    role_word = next(word for word, number in ROLES.items() if number == book.agents[agent - 1].role)
    kwh, hour = statement.peak
    return [
        f"Statement of agent {agent}, {role_word}, {'final' if book.closed else 'provisional'}.",
        f"Market: {dollars(statement.market)}.",
        f"Contracts: {dollars(statement.contracts)}.",
        f"Overcost: {dollars(statement.overcost)}.",
        f"Power: {dollars(statement.power)}.",
        f"Balance: {dollars(statement.balance)}.",
        f"Injected: {statement.injected} kilowatt-hours.",
        f"Withdrawn: {statement.withdrawn} kilowatt-hours.",
        f"Peak: {kwh} kilowatt-hours in hour {hour}.",
        "End of statement.",
    ]


def together(statements):
    return sum(statement.balance for statement in statements)


def show_all(book):
    """The statements of every agent, and the totals."""
    statements = book.statements()
    printed = []
    for agent, statement in enumerate(statements, start=1):
        printed += show_statement(book, agent, statement)
    word = "is" if together(statements) == -book.residue() else "is NOT"
    return printed + [
        f"Sum of balances: {dollars(together(statements))}.",
        f"Residue of the standing hours: {dollars(book.residue())}.",
        f"The sum of balances {word} minus the residue.",
    ]


# ---- The journal

# What a packet is written in.
DIGITS = "hexadecimal digits, two for each byte"

# The labels of each form, in order, with the words that may stand for a number.
FORMS = {
    "open": [("agents", {}), ("days", {}), ("weekday", WEEKDAYS)],
    "agent": [("", {}), ("role", ROLES), ("capacity", {}), ("power", {})],
    "contract": [("", {}), ("kind", {}), ("seller", {}), ("buyer", {}), ("place", PLACES)]
    + [(label, {}) for label in ("first", "last", "price", "peak", "medium", "base", "margin")],
    "cancel": [("", {})],
    "post": [("hour", {}), ("price", {})],
    "packet": [("", DIGITS)],
    "line": [("class", CLASSES)] + [(label, {}) for label in ("cause", "injected", "withdrawn", "gross", "factor", "cost")],
    "withdraw": [("hour", {})],
    "close": [],
    "statement": [("", {})],
    "statements": [],
}

CALLS = [form for form in FORMS if form not in ("agent", "line")]


class Malformed(Exception):
    """A line of the wrong form: its number and what was expected there."""


class Journal:
    """The lines that are not passed over, each with its number, and the end one past the last."""

    def __init__(self, text):
        lines = text.split(b"\n")
        if lines[-1] == b"":
            lines.pop()
        self.end = len(lines) + 1
        self.left = []
        for number, line in enumerate(lines, start=1):
            words = [word for word in line.decode("latin-1").split(" ") if word]
            if words and not words[0].startswith("#"):
                self.left.append((number, words))
        self.left.reverse()

    def next_form(self):
        """The first word of the next line, or nothing at the end."""
        return self.left[-1][1][0] if self.left else None

    def take(self, *forms):
        """Takes the next line, which is to have one of these forms: its number, its form and its figures."""
        if self.next_form() not in forms:
            raise Malformed(self.left[-1][0] if self.left else self.end, " or ".join(forms))
        number, words = self.left.pop()
        return number, words[0], read_figures(number, words)


def read_figures(number, words):
    rest = iter(words[1:])
    figures = []
    for label, names in FORMS[words[0]]:
        if label and next(rest, None) != label:
            raise Malformed(number, label)
        word = next(rest, "")
        if names is DIGITS:
            figures.append(read_bytes(number, word))
        elif word in names:
            figures.append(names[word])
        elif word and all(c in "0123456789" for c in word) and int(word) < 2**32:
            figures.append(int(word))
        else:
            raise Malformed(number, f"a number after {label or words[0]}")
        if label == "place" and figures[-1] not in PLACES.values():
            raise Malformed(number, "a place of delivery")
    if next(rest, None) is not None:
        raise Malformed(number, "the end of the line")
    return figures


def read_bytes(number, word):
    """The bytes that the digits of a packet give."""
    if word == "" or len(word) % 2 or any(c not in string.hexdigits for c in word):
        raise Malformed(number, DIGITS)
    return bytes.fromhex(word)


class Call(NamedTuple):
    number: int  # of the journal's line
    form: str
    name: str  # as it is printed
    given: list  # what the book is given


def calls(journal):
    """The calls of a journal one by one, until a line of the wrong form."""
    while journal.left:
        number, form, figures = journal.take(*CALLS)
        label = " hour" if form in ("post", "withdraw") else ""
        name = f"{form}{label} {figures[0]}" if figures and form not in ("open", "packet") else form
        if form == "open":
            count, days, weekday = figures
            figures = [days, weekday, read_agents(journal, count)]
        elif form == "post":
            hour, price = figures
            figures = [hour, Posting(price, read_lines(journal))]
        elif form == "contract":
            figures = [figures[0], Contract(*figures[1:])]
        yield Call(number, form, name, figures)


def read_agents(journal, count):
    agents = []
    while len(agents) < count:
        number, _, (place, *figures) = journal.take("agent")
        if place != len(agents) + 1:
            raise Malformed(number, f"agent {len(agents) + 1}")
        agents.append(Agent(*figures))
    return agents


def read_lines(journal):
    lines = []
    while journal.next_form() == "line":
        lines.append(Line(*journal.take("line")[2]))
    return lines


# ---- Settling


def hear(book, call):
    """What a book does with a call of the journal: its answer, and what is printed below it."""
    try:
        if call.form == "statement":
            return "accepted", show_statement(book, call.given[0], book.statement(*call.given))
        if call.form == "statements":
            return "accepted", show_all(book)
        change = dict(contract=book.enter, cancel=book.cancel, withdraw=book.withdraw, close=book.close)
        change |= dict(post=book.post, packet=book.post_packet)
        change[call.form](*call.given)
        return "accepted", []
    except Refused as refusal:
        return refused(refusal), []
    except MonthClosed:
        return "skipped, the month is closed", []


def refused(refusal):
    fault, place = refusal.args
    return f"refused, fault {fault} at {place}, {FAULTS[fault].format(place=place)}"


def open_book(call):
    """The book that an `open` begins, if it is accepted, and the answer."""
    try:
        return Book(*call.given), "accepted"
    except Refused as refusal:
        return None, refused(refusal)


def settle(journal, say):
    """Hears the journal and says what is printed, line by line."""
    book = None
    for call in calls(journal):
        printed = []
        if call.form == "open":
            book, answer = open_book(call)
        elif book:
            answer, printed = hear(book, call)
        else:
            answer = "skipped, no book is open"
        say(f"Line {call.number}, {call.name}: {answer}.")
        for line in printed:
            say(line)


# ---- Auditing


def audit(journal, say):
    """Settles the last book opened three times, and says what is alike."""
    opening, asked = None, []
    for call in calls(journal):
        if call.form == "open":
            opening, asked = call, []
        else:
            asked.append(call)
    if opening is None:
        say("Audit: none, since no book was opened.")
        return
    book, answer = open_book(opening)
    if book is None:
        say(f"Audit: none, since the last opening was {answer}.")
        return
    for line in findings(book, asked):
        say(line)


def answers(book, asked, heard=lambda call: True):
    """The book's answers to the calls that are no contract calls, of those that it hears."""
    told = []
    for call in filter(heard, asked):
        answer, _ = hear(book, call)
        if call.form == "statements":
            # It asks for the statement of each agent, one by one.
            told += [answer] * len(book.agents)
        elif not about_contracts(call):
            told.append(answer)
    return told


def about_contracts(call):
    return call.form in ("contract", "cancel")


def settle_standing(book):
    """A book opened alike that hears what stands in this one, and nothing else."""
    again = book.alike()
    for number, contract in book.contracts.items():
        again.enter(number, contract)
    for hour, posting in sorted(book.standing.items()):
        again.post(hour, posting)
    if book.closed:
        again.close()
    return again


def findings(first, asked):
    """What an audit says of a book that has just been opened."""
    second = first.alike()
    one = answers(first, asked)
    other = answers(second, asked, lambda call: not about_contracts(call))
    books = first, second, settle_standing(first)
    alike = sum(pair[0] == pair[1] for pair in zip(one, other, strict=True))
    yield f"Calls that the first and the second book both heard: {len(one)}."
    yield f"Of these calls, answered alike: {alike}."
    for name, book in zip(("first", "second", "third"), books):
        yield f"Sum of balances in the {name} book: {dollars(together(book.statements()))}."
    yield f"Residue of the standing hours: {dollars(first.residue())}."
    statements = list(zip(*(book.statements() for book in books)))
    parties = {party for contract in first.contracts.values() for party in (contract.seller, contract.buyer)}
    strangers = [of_three for agent, of_three in enumerate(statements, start=1) if agent not in parties]
    same = sum(of_three[0] == of_three[1] for of_three in strangers)
    again = sum(of_three[0] == of_three[2] for of_three in statements)
    yield f"Agents that are party to no standing contract: {len(strangers)}."
    yield f"Of these agents, with the same statement in the first and the second book: {same}."
    yield f"Agents with the same statement in the first and the third book: {again}."
    if (alike, same, again) != (len(one), len(strangers), len(statements)):
        raise AssertionError("by the rules nothing can differ, and the model's own books do")
    yield "Agents and lines that differ: none."


COMMANDS = {"settle": settle, "audit": audit}


def run(command, text):
    """What a command prints on standard output and standard error for this journal, and its status."""
    said = []
    try:
        COMMANDS[command](Journal(text), said.append)
    except Malformed as malformed:
        number, expected = malformed.args
        return said, [f"Line {number}: expected {expected}."], 1
    return said, [], 0


def main():
    if len(sys.argv) != 3 or sys.argv[1] not in COMMANDS:
        sys.exit("usage: python3 .ci/reference.py settle|audit FILE")
    if sys.argv[2] == "-":
        text = sys.stdin.buffer.read()
    else:
        with open(sys.argv[2], "rb") as file:
            text = file.read()
    said, errors, status = run(sys.argv[1], text)
    for line in said:
        print(line)
    for line in errors:
        print(line, file=sys.stderr)
    sys.exit(status)


if __name__ == "__main__":
    main()
