"""A model of the day of a meter, and dumps to try `gibzurg meter` on: good ones, at the edges and drawn at random, always the same ones, and damaged ones.

    python3 .ci/meter_cases.py FILE

It reads a dump and prints what `gibzurg meter` should print. The rules are those of docs/RULES.md, under Metering; the words those of docs/JOURNAL.md.
"""

import random
import struct
import sys

QUARTERS = 96
DUMP_BYTES = 1536
MOST = 1_000_000
HUGE = 4_294_967_295
DRAWN_DAYS = 120
DRAWN_DAMAGES = 80

FAULTS = {
    15: "the dump is not as long as that of a day",
    16: "a quarter's channel, gross or net energy is outside its limit",
}


# ---- The model


def refused(number, place):
    return f"Meter: refused, fault {number} at {place}, {FAULTS[number]}."


def is_sound(channels):
    gross_delivered, gross_received, net_delivered, net_received = channels
    gross = gross_delivered - gross_received
    return max(channels) <= MOST and gross >= 0 and net_delivered - net_received <= gross


def told(dump):
    """The lines that are printed of a dump."""
    if len(dump) != DUMP_BYTES:
        return [refused(15, 0)]
    quarters = list(struct.iter_unpack(">4I", dump))
    for place, channels in enumerate(quarters):
        if not is_sound(channels):
            return [refused(16, place)]
    lines = []
    for hour in range(24):
        gross = net = external = auxiliaries = 0
        for a, b, c, d in quarters[4 * hour : 4 * hour + 4]:
            gross += a - b
            net += max(c - d, 0)
            external += max(d - c, 0)
            auxiliaries += (a - b) - (c - d)
        lines.append(f"Hour {hour}: gross {gross}, net {net}, external auxiliaries {external}, auxiliaries {auxiliaries} kilowatt-hours.")
    return lines


# ---- Dumps


def dumped(quarters):
    return b"".join(struct.pack(">4I", *channels) for channels in quarters)


def every_case():
    """The name of each case, its dump, and beginnings of lines that must be printed in this order."""
    for part in (figures, edges, places, lengths, damages, faults_together, drawn, drawn_damages):
        for name, dump, *wanted in part():
            yield f"{part.__name__.replace('_', ' ')}, {name}", dump, wanted


def with_quarter(place, channels, others=(0, 0, 0, 0)):
    quarters = [others] * QUARTERS
    quarters[place] = channels
    return dumped(quarters)


def figures():
    """Hours worked by hand."""
    worked = {
        "a plant that runs": ((10, 0, 9, 0), 40, 36, 0, 4),
        "a plant that stands": ((0, 0, 0, 5), 0, 0, 20, 20),
        "a plant that takes more than it gives": ((10, 0, 0, 5), 40, 0, 20, 60),
        "numbers both ways": ((110, 100, 20, 25), 40, 0, 20, 60),
        "all gross energy is net": ((9, 1, 8, 0), 32, 32, 0, 0),
        "nothing": ((0, 0, 0, 0), 0, 0, 0, 0),
    }
    for name, (channels, gross, net, external, auxiliaries) in worked.items():
        figures = f"gross {gross}, net {net}, external auxiliaries {external}, auxiliaries {auxiliaries} kilowatt-hours."
        yield name, dumped([channels] * QUARTERS), *[f"Hour {hour}: {figures}" for hour in range(24)]
    # Net energy and external auxiliaries are taken of each quarter, and do not make up for each other in an hour.
    both = [(8, 0, 3, 0), (8, 0, 0, 7), (8, 0, 8, 0), (8, 0, 1, 1)]
    yield "quarters of an hour that differ", dumped(both * 24), "Hour 0: gross 32, net 11, external auxiliaries 7, auxiliaries 28 "


def edges():
    """Channels at their limit, in every quarter."""
    for channels in [
        (MOST, 0, 0, 0),
        (MOST, 0, MOST, 0),
        (MOST, 0, 0, MOST),
        (MOST, MOST, 0, 0),
        (MOST, MOST, 0, MOST),
        (MOST, MOST, MOST, MOST),
        (MOST, 1, MOST - 1, 0),
        (1, 0, 0, MOST),
        (0, 0, 0, MOST),
        (255, 0, 0, 256),
        (65_536, 0, 65_535, 0),
    ]:
        yield f"{channels}", dumped([channels] * QUARTERS), "Hour 0: ", "Hour 23: "


def places():
    """A quarter counts in its own hour and in no other."""
    for place in range(QUARTERS):
        figures = "gross 258, net 0, external auxiliaries 3, auxiliaries 261 kilowatt-hours."
        yield f"quarter {place}", with_quarter(place, (259, 1, 4, 7)), f"Hour {place // 4}: {figures}"


def lengths():
    good = dumped([(10, 0, 9, 0)] * (QUARTERS + 1))
    bad = dumped([(0, 1, 0, 0)] * (QUARTERS + 1))
    for length in (0, 1, 15, 16, 64, 384, 1520, 1535, 1537, 1552):
        for name, dump in (("good", good), ("damaged", bad)):
            yield f"{length} bytes of a {name} dump", dump[:length], refused(15, 0)
    yield "1536 bytes of a good dump", good[:DUMP_BYTES], "Hour 0: gross 40, net 36, external auxiliaries 0, auxiliaries 4 kilowatt-hours."
    yield "1536 bytes of a damaged dump", bad[:DUMP_BYTES], refused(16, 0)
    yield "a journal in place of a dump", b"open agents 1 days 1 weekday monday\n", refused(15, 0)
    yield "a dump of letters", b"gibzurg " * 192, refused(16, 0)


# Channels that a quarter may not have.
DAMAGED = {
    "gross delivered above its limit": (MOST + 1, 1, 0, 0),
    "gross received above its limit": (MOST + 1, MOST + 1, 0, 0),
    "gross received alone above its limit": (MOST, MOST + 1, 0, 1),
    "net delivered above its limit": (MOST, 0, MOST + 1, 1),
    "net received above its limit": (10, 0, 0, MOST + 1),
    "gross delivered at its highest": (HUGE, 0, 0, 0),
    "net received at its highest": (10, 0, 0, HUGE),
    "all channels at their highest": (HUGE, HUGE, HUGE, HUGE),
    "gross energy below 0": (0, 1, 0, 1),
    "gross energy far below 0": (0, MOST, 0, MOST),
    "gross energy below 0, and net energy above it": (6, 7, 0, 0),
    "net energy above gross": (8, 1, 8, 0),
    "net energy above no gross energy": (5, 5, 1, 0),
    "net energy far above gross": (0, 0, MOST, 0),
}


def damages():
    for name, channels in DAMAGED.items():
        for place in (0, 1, 3, 4, 47, 94, 95):
            yield f"{name} in quarter {place}", with_quarter(place, channels, (10, 0, 9, 0)), refused(16, place)


def faults_together():
    """Of two damaged quarters the first is told, whatever is wrong with each."""
    for first, second in ((0, 95), (0, 1), (3, 4), (94, 95)):
        for one in DAMAGED.values():
            for other in ((MOST + 1, 0, 0, 0), (0, 1, 0, 0), (0, 0, 1, 0)):
                quarters = [(10, 0, 9, 0)] * QUARTERS
                quarters[first], quarters[second] = one, other
                yield f"{one} in quarter {first} and {other} in quarter {second}", dumped(quarters), refused(16, first)


def drawn_quarter(rng):
    """Channels that a quarter may have."""
    most = rng.choice([1, 10, 300, 70_000, MOST])
    gross = rng.choice([0, most, rng.randint(0, most)])
    received = rng.choice([0, MOST - gross, rng.randint(0, MOST - gross)])
    net = rng.choice([gross, gross - 1, 0, -1, -most, rng.randint(-most, gross)])
    low, high = max(0, -net), min(MOST, MOST - net)
    net_received = rng.choice([low, high, rng.randint(low, high)])
    return gross + received, received, net + net_received, net_received


def drawn():
    for seed in range(DRAWN_DAYS):
        rng = random.Random(5000 + seed)
        yield f"{seed}", dumped(drawn_quarter(rng) for _ in range(QUARTERS)), "Hour 0: ", "Hour 23: "


def drawn_damages():
    """Good days of which some bytes or one number were changed: whether they are still good is the model's to say."""
    for seed in range(DRAWN_DAMAGES):
        rng = random.Random(6000 + seed)
        dump = bytearray(dumped(drawn_quarter(rng) for _ in range(QUARTERS)))
        if seed % 2:
            for _ in range(rng.randint(1, 3)):
                dump[rng.randrange(DUMP_BYTES)] ^= 1 << rng.randrange(8)
        else:
            number = rng.choice([0, 1, MOST, MOST + 1, rng.randint(0, 2 * MOST)])
            struct.pack_into(">I", dump, 4 * rng.randrange(4 * QUARTERS), number)
        yield f"{seed}", bytes(dump)


def main():
    if len(sys.argv) != 2:
        sys.exit("usage: python3 .ci/meter_cases.py FILE")
    with open(sys.argv[1], "rb") as file:
        for line in told(file.read()):
            print(line)


if __name__ == "__main__":
    main()
