"""A model of hour packets, made apart from the program.

It is written from docs/RULES.md, from Packets on, and from fault 17 of docs/FAULTS.md alone. It knows nothing of a book.
"""

FIGURES = range(2**32)
LINE_COUNTS = range(1, 64 + 1)
FIGURES_OF_A_LINE = 7


class NoPacket(Exception):
    """Bytes that are no hour packet: where the first number starts that is wrong, or the first byte left over."""


def spelled(value):
    """The bytes of a number: groups of seven bits, the lowest first, each but the last with 128 more."""
    groups = []
    while value >= 128:
        groups.append(128 + value % 128)
        value //= 128
    return bytes([*groups, value])


def hour_packet(hour, price, lines):
    """The bytes that carry these figures, also where no reader takes them. A line is its seven figures, in their order."""
    numbers = [hour, price, len(lines), *(figure for line in lines for figure in line)]
    return b"".join(spelled(number) for number in numbers)


class Reader:
    """Takes the numbers of a packet one after another."""

    def __init__(self, packet):
        self.packet = packet
        self.place = 0

    def take(self, allowed):
        """The next number, which has to be one of these."""
        rest = self.packet[self.place :]
        groups = next((place for place, byte in enumerate(rest, start=1) if byte < 128), None)
        if groups is None:
            raise NoPacket(self.place)  # it ends too early
        value = sum(byte % 128 * 128**place for place, byte in enumerate(rest[:groups]))
        if (groups > 1 and rest[groups - 1] == 0) or value not in allowed:
            raise NoPacket(self.place)
        self.place += groups
        return value


def read_hour_packet(packet):
    """The hour, the price and the lines that these bytes carry."""
    reader = Reader(packet)
    hour, price = reader.take(FIGURES), reader.take(FIGURES)
    count = reader.take(LINE_COUNTS)
    lines = [[reader.take(FIGURES) for _ in range(FIGURES_OF_A_LINE)] for _ in range(count)]
    if reader.place < len(packet):
        raise NoPacket(reader.place)
    return hour, price, lines
