"""A state as it is handed in: the dictionary of series_vectors.py, every field of which may hold anything.

From it the bytes, the model's series and the lines of the program `test_handed_in`; and from a model's series the state again.
"""

import tools
import struct

from entries import Entry
from model import Series
from packed import *
from printed import message_lines
from series_vectors import is_sound_series, series, series_picture
from sound_books import FIXED, SLIDING as SLIDES, DARK as HIDES, ZERO, book_of, entry
from soundness import unsound
from soundness_vectors import shown

PRICED = {PLAIN: FIXED, MMLO: FIXED, MMALO: SLIDES, MMRP: SLIDES, ORDER: FIXED, DARK: HIDES}


def state_of(model):
    """The state of a model's series: rank is position."""
    resting = [entry(e.kind, e.party, e.side, e.limit, e.number, e.quantity, e.display, e.working)
               for e in sorted(model.book, key=lambda e: e.rank)]
    return series(book_of(model.m, model.given, resting), put=int(model.put), exempt=int(model.exempt), k=model.k, strike=model.strike,
                  phase=model.phase, bid=model.away_bid, offer=model.away_offer, underlying=model.underlying,
                  blocked=[int(maker in model.blocked) for maker in range(1, TOP_MAKER + 1)])


def model_of(state):
    """The model's series in this state."""
    model = Series(state["put"], state["exempt"], state["m"], state["k"], state["strike"])
    model.phase, model.given = state["phase"], state["given"]
    model.away_bid, model.away_offer, model.underlying = state["bid"], state["offer"], state["underlying"]
    model.blocked = {maker for maker in range(1, TOP_MAKER + 1) if state["blocked"][maker - 1]}
    for e in state["entries"][:state["count"]]:
        resting = Entry(e["number"], e["kind"], e["party"], e["sell"], e["limit"], e["quantity"])
        resting.display, resting.working = shown(e) or 0, e["working"]
        model.last_in_rank(resting)
        model.book.append(resting)
    model.book.sort(key=lambda e: e.number)
    return model


def beyond_the_model(state):
    """The clause of soundness that the state breaks in a way which the model has no picture of, or ""."""
    if state["count"] > BOOK_SIZE:
        return "count"
    if any(e != ZERO for e in state["entries"][state["count"]:]):
        return "unused places"
    if any(PRICED.get(e["kind"], e["pricing"]) != e["pricing"] for e in state["entries"][:state["count"]]):
        return "pricing"
    return ""


def wrong_with(state):
    """The first clause of soundness that the state breaks, "" if it is sound. The two models of soundness have to agree."""
    wrong = beyond_the_model(state) or unsound(model_of(state))
    assert (wrong == "") == is_sound_series(state), (wrong, state)
    return wrong


def answer(state, message, room):
    """(refusal, reports, the state afterwards)"""
    if beyond_the_model(state):
        return (10 if room < ROOM_NEEDED else 11), [], state
    model = model_of(state)
    refusal, reports = model.handle(message, room)
    if refusal in (10, 11):
        return refusal, reports, state
    after = state_of(model)
    assert refusal == 0 or after == state, "the model: a refusal changed the state"
    return refusal, reports, after


# ---- the table

def case_bytes(state, message, room):
    return series_picture(state) + struct.pack(">II", room, len(message)) + message.ljust(16, b"\0")


def entry_line(word, e):
    return " ".join(str(x) for x in (word, e["number"], e["party"], e["kind"], e["sell"], e["limit"], e["quantity"], shown(e) or 0, e["working"],
                                     e["pricing"]))


def state_lines(state):
    """Every field of the state: what is left over in a place that ought to be unused has a line too."""
    yield " ".join(str(x) for x in ("series", *(state[name] for name in ("put", "exempt", "m", "k", "strike", "phase", "bid", "offer", "underlying",
                                                                         "given")), "".join(map(str, state["blocked"])), state["count"]))
    for place, e in enumerate(state["entries"]):
        if place < state["count"]:
            yield entry_line("rests", e)
        elif e != ZERO:
            yield entry_line("left over", e)


def case_lines(number, state, message, room):
    refusal, reports, after = answer(state, message, room)
    return [*message_lines(number, refusal, reports), "room kept", *state_lines(after)]
