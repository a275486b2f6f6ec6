#!/usr/bin/env python3
"""The table of the crate `test_handed_in`: states handed to the handler that no recorded session reaches, each with a message and a room.

    python3 tests/handed_in.py            writes crates/test_handed_in/stdin and stdout
    python3 tests/handed_in.py --check    only says whether they are up to date

What must be printed comes from the independent model (model.py, soundness.py), which also has to agree with series_vectors.py on what is
sound. The states are sound and not settled, or unsound by each clause; rooms are too small by one byte and by all; entry numbers are used up.
"""

import tools
import copy
import random
from collections import Counter, defaultdict

import series_vectors
import soundness_vectors
from entries import behind, seen
from generate import Generator
from handing import answer, case_bytes, case_lines, model_of, series, state_of, wrong_with
from packed import *
from series_vectors import empty, full, orders
from sound_books import book_of, entry, random_book
from steps import climbed, legal
from tables import is_check, keep

GOOD = Message(UNDERLYING, price=20_011).pack()         # accepted by every sound state
BAD = Message(UNDERLYING, price=20_011, party=1).pack()  # refused 1: a field that the kind does not use
CASES = []


def case(state, message, room=ROOM_NEEDED, says=None, tells=()):
    """One case. `says` is the refusal as document 01 has it, written out by hand, and `tells` the reasons of all rejections and
    cancellations in order, but for those of a phase: the model must say the same."""
    refusal, reports, _ = answer(state, message, room)
    assert says is None or refusal == says, (len(CASES) + 1, says, refusal)
    assert not tells or [reason for _, reason, *_ in reports if reason] == list(tells), (len(CASES) + 1, tells, reports)
    CASES.append((state, message, room))


# ---- sound, and not settled

class Player(Generator):
    """Plays a generated session and keeps its states; then makes messages that aim at the prices of a state handed in."""

    def __init__(self, flavour):
        super().__init__("handed in", 160, flavour)
        self.kept, self.offered = [], None
        self.session()

    def send(self, data):
        if self.offered is not None:
            self.offered.append(data)
            return 0, []
        self.kept.append(copy.deepcopy(self.series))
        return super().send(data)

    def message(self, model, kind):
        """A message of this kind; of any, with faults, for 0."""
        self.series, self.offered = model, []
        if kind in QUOTES:
            self.enter(kind, self.rng.choice(self.makers))
        else:
            {0: self.faulty, ORDER: self.order, DARK: self.dark, CANCEL_ENTRY: self.cancel, CANCEL_QUOTE: self.withdraw, AWAY: self.away,
             UNDERLYING: self.underlying, PHASE: self.phase, ENABLE: self.enable}[kind]()
        return self.offered[-1]


def settled(model):
    """Whether settling would do nothing."""
    other = copy.deepcopy(model)
    other.reports, other.steps = [], {"easing": 0, "trade": 0, "move": 0}
    if other.phase == OPEN:
        other.settle()
    return not other.reports


def slid(model, entry, rng):
    """A sliding entry at other prices, and perhaps with a keener limit: display and working price legal, a step apart at most, and
    no crossing."""
    m, side, c, keener = model.m, entry.side, model.c(entry.side), seen(entry.side, 1)
    limit = climbed(m, entry.limit, keener * rng.choice((0, 0, 1, 3, 12, 120)))
    if not legal(m, limit):
        limit = entry.limit
    top = seen(side, limit) if c is None else min(seen(side, limit), behind(m, side, c))
    working = climbed(m, seen(side, top), -keener * rng.choice((0, 0, 0, 1, 1, 2, 3, 5, 9)))
    display = climbed(m, working, -keener * rng.randrange(2))
    if legal(m, display) and legal(m, working):
        entry.limit, entry.display, entry.working = limit, display, working


def reranked(model, rng):
    """The entries in any rank order."""
    for rank, entry in enumerate(rng.sample(model.book, len(model.book)), 1):
        entry.rank = rank


def unsettled(player, model):
    """The series at other prices, sound as before."""
    rng, player.series = player.rng, model
    for entry in rng.sample(model.book, len(model.book)):
        if entry.kind in SLIDING and rng.random() < 0.6:
            slid(model, entry, rng)
    draw = rng.random()
    if draw < 0.7:
        model.away_bid = rng.choice((0, player.near(), player.near()))
    if draw > 0.3:
        model.away_offer = rng.choice((0, player.near(), player.near()))
    if rng.random() < 0.5:
        reranked(model, rng)
    if rng.random() < 0.5:
        model.blocked ^= set(rng.sample(range(1, 17), 4))
    return model


def sliding_states():
    """Of each flavour, states with something that slides; each with a message of every kind, and one with faults."""
    told = Counter()
    for flavour in ("mixed", "slide", "crowd", "lock", "step", "dark", "low", "high", "protect", "full", "ladder"):
        player = Player(flavour)
        kept = [model for model in player.kept if sum(e.kind in SLIDING for e in model.book) >= 2]
        for kind in range(13):
            model = unsettled(player, copy.deepcopy(player.rng.choice(kept)))
            told["settled" if settled(model) else "not settled"] += 1
            case(state_of(model), player.message(model, kind))
    assert told["not settled"] >= 4 * told["settled"], told


def rungs(side, m=1, middle=20_000, back=None, ahead=None):
    """64 entries, and nothing where it wants to be: 15 MMALO follow, move by move, an MMRP that trades its way through 16 MMALO quotes and
    32 orders.  Away prices are named by their steps from the middle."""
    def at(steps):
        return climbed(m, middle, seen(side, steps))
    makers = range(1, 16)
    resting = [entry(MMALO, maker, side, at(120), maker, display=at(-10 - maker), working=at(-10 - maker)) for maker in makers]
    resting += [entry(MMALO, maker, 1 - side, at(maker), 20 + maker, 1, at(100 + maker), at(100 + maker)) for maker in range(1, 17)]
    resting += [entry(ORDER if i % 3 else DARK, 50 + i, 1 - side, at(10 + 2 * i), 40 + i, 1) for i in range(32)]
    resting.append(entry(MMRP, 16, side, at(120), 90, 99_999, at(-30), at(-29)))
    away = [0 if steps is None else at(steps) for steps in (back, ahead)]
    bid, offer = away if side == BUY else away[::-1]
    return series(book_of(m, 90, resting), strike=30_000, bid=bid, offer=offer, exempt=1)


# Where the rungs lie on both sides of 300.
RUNGS_ACROSS = ((BUY, 1, 280), (SELL, 1, 400), (BUY, 5, 155), (SELL, 5, 950))


def long_settlings():
    for where in RUNGS_ACROSS + ((BUY,), (SELL,)):
        most = len(answer(rungs(*where), GOOD, ROOM_NEEDED)[1])
        assert most > 500, most
        case(rungs(*where), GOOD, says=0)
        case(rungs(*where, ahead=41), Message(ENABLE, 7).pack(), says=0)
    for side in (BUY, SELL):
        case(rungs(side, back=-10, ahead=0), Message(CANCEL_QUOTE, 3, side).pack(), says=0)
        case(rungs(side), Message(CANCEL_ENTRY, 16, entry=90).pack(), says=0)
        case(rungs(side), Message(PHASE, quantity=HALTED).pack(), says=0)
        case(rungs(side), Message(ORDER, 99, side, 20_000, 5).pack(), says=7)
        case(rungs(side), Message(MMRP, 16, side, 20_100, 3).pack(), says=0)
    one = Player("ladder")
    longest = sorted(one.kept, key=lambda model: len(model.book))[-1]
    longest.away_bid = longest.away_offer = 0
    for kind in (MMALO, MMRP, UNDERLYING, CANCEL_QUOTE):
        case(state_of(longest), one.message(copy.deepcopy(longest), kind))


def eased(away_bid, away_offer, pair=1, middle=210, **numbers):
    """Quotes of both sides, numbered by turns and ranked otherwise, that work a step ahead of their displays or at them."""
    def at(side, steps):
        return climbed(pair, middle, seen(side, steps))
    resting = [entry(MMRP if maker % 2 else MMALO, maker, side, middle, 2 * maker + (maker + side) % 2, maker,
                     at(side, -1 - maker), at(side, -1 - maker + maker // 2 % 2)) for side in (BUY, SELL) for maker in (5, 3, 1, 2, 6, 4)]
    return series(book_of(pair, 20, resting), **dict(dict(bid=away_bid, offer=away_offer, exempt=1), **numbers))


def easings():
    """Away prices at, between and through displays and working prices, of one side and of both at once."""
    for away_bid, away_offer in ((0, 207), (213, 0), (213, 207), (214, 206), (215, 205), (216, 204), (300, 100), (212, 208), (1, 100_000)):
        case(eased(away_bid, away_offer), GOOD, says=0)
        case(eased(0, 0), Message(AWAY, price=away_bid, second=away_offer).pack(), says=0)
    # the same steps from a middle so near 300 that the buys stand across it, or the sells, by each pair
    for pair in (1, 5):
        for middle in (climbed(pair, 300, 4), climbed(pair, 300, -4)):
            for away in ((0, -3), (3, 0), (3, -3), (4, -4), (5, -5), (6, -6), (2, -2)):
                bid, offer = (climbed(pair, middle, steps) if steps else 0 for steps in away)
                case(eased(bid, offer, pair, middle), GOOD, says=0)
                case(eased(0, 0, pair, middle), Message(AWAY, price=bid, second=offer).pack(), says=0)
    case(eased(214, 206), Message(PHASE, quantity=OPEN).pack(), says=0)
    case(eased(214, 206), Message(CANCEL_QUOTE, 3, SELL).pack(), says=0)
    case(eased(214, 206), Message(PLAIN, 3, SELL, 213, 9).pack())
    case(eased(214, 206), Message(PHASE, quantity=HALTED).pack(), says=0)


def stopped():
    """Quotes of maker 3, which quotes both sides, that are rejected or may not post their rest: what they cancel, and then what settles."""
    for kind in QUOTES:
        case(eased(0, 0, exempt=0, underlying=150), Message(kind, 3, BUY, 150, 5).pack(), tells=(25, 30, 30))
        case(eased(0, 0, exempt=0, put=1, strike=150), Message(kind, 3, BUY, 150, 5).pack(), tells=(26, 30, 30))
        case(eased(0, 0), Message(kind, 3, BUY, 320, 5).pack(), tells=(24, 30))
        case(eased(0, 0), Message(kind, 3, SELL, 104, 5).pack(), tells=(24, 30))
    case(eased(0, 206), Message(PLAIN, 3, BUY, 206, 5).pack(), tells=(20, 30))
    case(eased(214, 0), Message(MMLO, 3, SELL, 214, 5).pack(), tells=(20, 30))
    case(eased(0, 0), Message(MMLO, 3, BUY, 212, 9).pack(), tells=(27, 21, 29))
    case(eased(0, 0), Message(MMLO, 3, SELL, 208, 9).pack(), tells=(27, 21, 29))
    case(eased(0, 0), Message(MMALO, 3, BUY, 222, 9).pack(), tells=(22, 30))
    case(eased(0, 0), Message(MMALO, 3, SELL, 198, 9).pack(), tells=(22, 30))
    case(eased(0, 1), Message(MMRP, 3, BUY, 5, 9).pack(), tells=(23, 30))
    case(eased(100_000, 0), Message(MMRP, 3, SELL, 60_000, 9).pack(), tells=(23, 30))


def faults():
    """2, 3 and 4, of a series that would settle: nothing settles."""
    for says, message in ((2, Message(MMRP, 17, BUY, 210, 5)), (2, Message(DARK, 100, BUY, 210, 5)), (2, Message(ENABLE, 0)),
                          (2, Message(CANCEL_ENTRY, 0, entry=4)), (3, Message(ORDER, 1, SELL, 0, 5)), (3, Message(ORDER, 1, SELL, 100_001, 0)),
                          (3, Message(AWAY, price=1, second=100_001)), (3, Message(UNDERLYING, price=100_001)), (3, Message(ORDER, 1, SELL, 301, 5)),
                          (3, Message(AWAY, price=299, second=304)), (4, Message(PLAIN, 3, BUY, 210, 0)),
                          (4, Message(DARK, 3, BUY, 210, 100_000)), (4, Message(PHASE, quantity=3)), (8, Message(CANCEL_QUOTE, 7, BUY))):
        case(eased(214, 206), message.pack(), says=says)


def halted_and_closed():
    """A halted series with orders alone, and a closed one, with every kind of message; blocked makers with quotes at rest."""
    for make, phase in ((orders, HALTED), (empty, CLOSED)):
        for kind in range(1, 13):
            state = make(5, phase=phase, bid=950, offer=1_100, underlying=7, given=40, blocked=[1, 0] * 8)
            carried = dict(party=1, side=SELL, price=1_050, quantity=2 if kind == PHASE else 10, second=1_000, entry=9)
            message = Message(kind, **{name: value for name, value in carried.items() if name in CARRIES[kind]}).pack()
            case(state, message, says=5 if kind in ENTERING else 8 if kind in (CANCEL_ENTRY, CANCEL_QUOTE) else 0)
    case(orders(5, phase=HALTED, offer=1_990), Message(PHASE, quantity=OPEN).pack(), says=0)
    case(orders(5, phase=HALTED), Message(CANCEL_ENTRY, 99, entry=9).pack(), says=0)
    every = [1] * 16
    for kind in QUOTES:
        case(full(1, blocked=every), Message(kind, 4, SELL, 230, 5).pack(), says=6)
    for message in (Message(ENABLE, 4), Message(CANCEL_QUOTE, 4, SELL), Message(CANCEL_ENTRY, 3, entry=21), Message(ORDER, 3, BUY, 190, 7),
                    Message(PHASE, quantity=HALTED), Message(PHASE, quantity=OPEN), Message(AWAY, price=210, second=212)):
        case(full(1, blocked=every), message.pack(), says=0)


# ---- unsound

CLAUSES = {"setup", "phase", "away price", "underlying price", "entry numbers given", "entry numbers not distinct",
           "something rests in a closed series", "entry number not among those given", "kind or side", "limit", "quantity", "party",
           "a quote rests in a halted series",
           "two quotes of one maker and side", "dark prices", "prices apart from the limit", "a sliding entry's prices",
           "a sliding entry's prices to each other", "a buy works at a sell's working price or above", "count", "unused places", "pricing"}


def unsound_states():
    """Of each clause, the states that break it."""
    rng, states = random.Random(11), defaultdict(list)
    soundness_vectors.each_clause()
    for state in series_vectors.every_case() + [series(book) for book in soundness_vectors.cases]:
        wrong = wrong_with(state)
        if wrong:
            states[wrong].append(state)
    assert set(states) == CLAUSES, set(states) ^ CLAUSES
    return {wrong: rng.sample(states[wrong], min(3, len(states[wrong]))) for wrong in sorted(states)}


def unsound_cases():
    """11 comes before 1 and before all that is wrong with the message."""
    for states in unsound_states().values():
        for state, message in zip(states, (GOOD, BAD, Message(MMRP, 17, BUY, 3, 0).pack())):
            case(state, message, says=11)
        case(states[0], GOOD[:10], says=11)


# ---- the room, and the message's length

def rooms():
    """10 before 11 before 1; a room that is just large enough, or larger, is used at its front alone."""
    broken = full(5, k=101)
    for room in (0, 14, ROOM_NEEDED - 1, ROOM_NEEDED, ROOM_NEEDED + 1, 40_000):
        small = room < ROOM_NEEDED
        for state in (full(5), rungs(BUY), orders(1, phase=HALTED)):
            case(state, GOOD, room, says=10 if small else 0)
        case(broken, GOOD, room, says=10 if small else 11)
        case(broken, BAD, room, says=10 if small else 11)
        case(full(5), BAD, room, says=10 if small else 1)
        case(full(5), Message(ORDER, 100, BUY, 5, 1).pack(), room, says=10 if small else 2)
        case(full(5), b"", room, says=10 if small else 1)


def lengths():
    """Lengths other than 11, of messages that would be good."""
    for state, says in ((rungs(SELL), 1), (empty(1, phase=CLOSED), 1), (full(1, bid=7, m=5), 11)):
        for length in (0, 1, 10, 12, 16):
            case(state, GOOD.ljust(16, b"\0")[:length], says=says)
        case(state, bytes(11), says=says)
        case(state, bytes(12), says=says)


# ---- the last entry number

def filled(given, **numbers):
    """64 entries, a quote of maker 2 among them."""
    resting = [entry(PLAIN, 2, BUY, 100, 5)] + [entry(ORDER, 60, BUY, 101 + i, given - i) for i in range(63)]
    return series(book_of(1, given, resting), **numbers)


def last_numbers():
    last = TOP_ENTRY
    for kind in ENTERING:
        quote, far = kind in QUOTES, Message(kind, 2, SELL, 2_300, 4).pack()
        for given, says in ((last - 1, 0), (last, 9)):
            case(full(5, given=given), far, says=says)
            case(series(book_of(5, given, [entry(ORDER, 1, BUY, 100, given)]), phase=HALTED), far, says=5)
        case(full(5, given=last, blocked=[1] * 16), far, says=6 if quote else 9)
        case(filled(last), Message(kind, 3, BUY, 90, 4).pack(), says=7)
        case(filled(last), Message(kind, 2, BUY, 90, 4).pack(), says=9 if quote else 7)
        case(filled(last - 1), Message(kind, 2, BUY, 90, 4).pack(), says=0 if quote else 7)
    # the last number goes to a quote that is rejected, too
    case(full(5, given=last - 1, offer=2_150), Message(PLAIN, 9, BUY, 2_150, 1).pack(), says=0)
    case(full(5, given=last), Message(PLAIN, 9, BUY, 2_155, 1).pack(), says=3)
    # nothing else takes a number
    state = full(5, given=last)
    state["entries"][0]["number"] = last
    for says, message in ((0, Message(CANCEL_ENTRY, 1, entry=last)), (8, Message(CANCEL_ENTRY, 2, entry=last)),
                          (8, Message(CANCEL_ENTRY, 1, entry=7)), (0, Message(CANCEL_QUOTE, 4, SELL)), (8, Message(CANCEL_QUOTE, 4, BUY)),
                          (0, Message(AWAY, price=2_010, second=2_020)),
                          (0, Message(PHASE, quantity=OPEN)), (0, Message(PHASE, quantity=HALTED)), (0, Message(PHASE, quantity=CLOSED)),
                          (0, Message(ENABLE, 1))):
        case(state, message.pack(), says=says)
    rng = random.Random(64)
    for _ in range(6):
        state = series(dict(random_book(rng, 64), given=rng.choice((last - 1, last))), exempt=1)
        offer = min([e["working"] for e in state["entries"] if e["sell"]], default=50_000)
        case(state, Message(MMRP, rng.randrange(1, 17), BUY, offer, 9).pack())


def table():
    for part in (sliding_states, easings, stopped, faults, long_settlings, halted_and_closed, unsound_cases, rooms, lengths, last_numbers):
        part()
    lines = [line for number, one in enumerate(CASES, 1) for line in case_lines(number, *one)]
    return {"stdin": b"".join(case_bytes(*one) for one in CASES), "stdout": "".join(line + "\n" for line in lines).encode()}


if __name__ == "__main__":
    keep("test_handed_in", table())
    print("handed_in: %d cases %s" % (len(CASES), "are as written" if is_check() else "written"))
