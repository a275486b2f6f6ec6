"""The numbers of document 01 and its packed bytes: setup and messages.

Fields are packed most significant bit first.  Nothing here knows of the book.
"""

TOP_PRICE, TOP_QUANTITY, TOP_ENTRY = 100_000, 99_999, 1_000_000
TOP_PARTY, TOP_MAKER, BOOK_SIZE = 99, 16, 64
MOST_REPORTS, REPORT_BYTES = 2_280, 14
ROOM_NEEDED = MOST_REPORTS * REPORT_BYTES          # 31,920 bytes

PLAIN, MMLO, MMALO, MMRP, ORDER, DARK = 1, 2, 3, 4, 5, 6
CANCEL_ENTRY, CANCEL_QUOTE, AWAY, UNDERLYING, PHASE, ENABLE = 7, 8, 9, 10, 11, 12
QUOTES, ORDERS, SLIDING = (PLAIN, MMLO, MMALO, MMRP), (ORDER, DARK), (MMALO, MMRP)
ENTERING = QUOTES + ORDERS

BUY, SELL = 0, 1
CLOSED, OPEN, HALTED = 0, 1, 2

NOTED, REJECTED, TRADED, RESTED, REPRICED, CANCELLED = 1, 2, 3, 4, 5, 6
REPLACED, OWNER_ASKED, OPPOSITE_SIDE, OWN_QUOTE_REJECTED, PHASE_ENDED = 27, 28, 29, 30, 31


SETUP_WIDTHS = (1, 1, 4, 7, 17, 2)
MESSAGE_WIDTHS = (4, 7, 1, 17, 17, 17, 20, 5)
MESSAGE_FIELDS = ("kind", "party", "side", "price", "quantity", "second", "entry")
# Which fields a kind carries; every other one must be zero.
ENTER_FIELDS = ("party", "side", "price", "quantity")
CARRIES = {kind: ENTER_FIELDS for kind in ENTERING}
CARRIES.update({CANCEL_ENTRY: ("party", "entry"), CANCEL_QUOTE: ("party", "side"),
                AWAY: ("price", "second"), UNDERLYING: ("price",),
                PHASE: ("quantity",), ENABLE: ("party",)})


def cut(data, widths):
    """The bits of `data`, most significant first, cut into fields."""
    bits, fields = int.from_bytes(data, "big"), []
    for width in reversed(widths):
        fields.append(bits & ((1 << width) - 1))
        bits >>= width
    return fields[::-1]


def join(fields, widths):
    """The mirror of `cut`."""
    bits = 0
    for field, width in zip(fields, widths):
        assert 0 <= field < (1 << width), "a field does not fit"
        bits = (bits << width) | field
    return bits.to_bytes(sum(widths) // 8, "big")


class Message:
    def __init__(self, kind, party=0, side=0, price=0, quantity=0, second=0, entry=0):
        self.kind, self.party, self.side, self.price = kind, party, side, price
        self.quantity, self.second, self.entry = quantity, second, entry

    def pack(self):
        return join([getattr(self, name) for name in MESSAGE_FIELDS] + [0], MESSAGE_WIDTHS)


def unpack_message(data):
    """The message in these bytes, or None if they hold none."""
    if len(data) != 11:
        return None
    *fields, filling = cut(data, MESSAGE_WIDTHS)
    message = Message(*fields)
    if message.kind not in CARRIES or filling != 0:
        return None
    for name in MESSAGE_FIELDS[1:]:
        if name not in CARRIES[message.kind] and getattr(message, name) != 0:
            return None
    return message


def unpack_setup(data):
    """(put, exempt, M, K, strike), or None if the setup is refused."""
    if len(data) != 4:
        return None
    put, exempt, m, k, strike, filling = cut(data, SETUP_WIDTHS)
    if filling != 0 or not legal_setup(m, k, strike):
        return None
    return put, exempt, m, k, strike


def pack_setup(put, exempt, m, k, strike):
    return join([put, exempt, m, k, strike, 0], SETUP_WIDTHS)


def legal_setup(m, k, strike):
    return m in (1, 5) and 0 <= k <= 100 and 1 <= strike <= 100_000


def messages_of(data):
    """The messages after the setup: 11 bytes each, the last perhaps short."""
    return [data[place:place + 11] for place in range(4, len(data), 11)]
