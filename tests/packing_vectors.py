#!/usr/bin/env python3
"""The vectors of crates/test_packing: what it reads (stdin) and what it must print (stdout).

Run it again from the repository's root: python3 tests/packing_vectors.py
It writes crates/test_packing/stdin and crates/test_packing/stdout.

Everything here is written from the text of document 01 ("Numbers" and "Reports") and of document 02, 2 ("Setup M 10 is
refused; 1 and 5 name the pairs"), and from nothing else: bits are strings of 0 and 1, and what a kind does not name is asked
to be zero, field by field.

A line of stdin is a letter and bytes in hexadecimal:
  s BYTES           a setup
  m BYTES           a message
  u PLACE BYTES     the message at a place of a run
  r BYTES           a report
  o LENGTH PLACE BYTES   a report, written at a place of a room of so many bytes, each EE before
  w VALUE           four bytes: whether values with this number in one field can be packed
"""

SETUP = [("put", 1), ("exempt", 1), ("m", 4), ("k", 7), ("strike", 17), ("zero", 2)]
MESSAGE = [("kind", 4), ("party", 7), ("side", 1), ("price", 17), ("quantity", 17), ("second", 17), ("entry", 20), ("zero", 5)]
REPORT = [("kind", 3), ("reason", 5), ("side", 1), ("party", 7), ("entry", 20), ("other", 20), ("price", 17), ("second", 17),
          ("quantity", 17), ("zero", 5)]

QUOTE = ["party", "side", "price", "quantity"]
KINDS = {1: QUOTE, 2: QUOTE, 3: QUOTE, 4: QUOTE, 5: QUOTE, 6: QUOTE, 7: ["party", "entry"], 8: ["party", "side"],
         9: ["price", "second"], 10: ["price"], 11: ["quantity"], 12: ["party"]}

OWN = ["side", "party", "entry"]
REPORTS = {1: [], 2: OWN + ["reason", "price", "quantity"], 3: OWN + ["other", "price", "quantity"],
           4: OWN + ["price", "second", "quantity"], 5: OWN + ["price", "second", "quantity"],
           6: OWN + ["reason", "price", "quantity"]}


def bits_of(layout, values):
    return "".join(format(values.get(name, 0), "0%db" % width) for name, width in layout)


def hex_of(bits):
    return "".join("%02X" % int(bits[i:i + 8], 2) for i in range(0, len(bits), 8))


def fields_of(layout, text):
    """The fields of bytes in hexadecimal, or None if their number is wrong."""
    bits = "".join(format(int(text[i:i + 2], 16), "08b") for i in range(0, len(text), 2))
    if len(bits) != sum(width for _, width in layout):
        return None
    values, start = {}, 0
    for name, width in layout:
        values[name] = int(bits[start:start + width], 2)
        start += width
    return values


def with_kind(layout, kinds, text):
    """The fields of a message or a report; None for another length, an unknown kind or a nonzero unused bit or field."""
    values = fields_of(layout, text)
    if values is None or values["kind"] not in kinds:
        return None
    named = kinds[values["kind"]]
    for name, _ in layout:
        if name != "kind" and name not in named and values[name] != 0:
            return None
    return values


def is_legal(m, k, strike):
    return m in (1, 5) and 0 <= k <= 100 and 1 <= strike <= 100000


def tell_message(text):
    values = with_kind(MESSAGE, KINDS, text)
    if values is None:
        return "nothing"
    shown = [values[name] for name in KINDS[values["kind"]]]
    shown += [0] * (4 - len(shown))
    return " ".join(map(str, [values["kind"]] + shown)) + " same"


def tell_report(text):
    values = with_kind(REPORT, REPORTS, text)
    if values is None:
        return "nothing"
    return " ".join(str(values[name]) for name, _ in REPORT[:9]) + " same"


def tell_setup(text):
    values = fields_of(SETUP, text)
    if values is None or values["zero"] != 0 or not is_legal(values["m"], values["k"], values["strike"]):
        return "nothing"
    return " ".join(str(values[name]) for name, _ in SETUP[:5]) + " same"


def tell_room(length, place, text):
    room = ["EE"] * length
    if with_kind(REPORT, REPORTS, text) is None:
        return "nothing"
    fits = 14 * place + 14 <= length
    if fits:
        room[14 * place:14 * place + 14] = [text[i:i + 2] for i in range(0, 28, 2)]
    return ("put " if fits else "left ") + "".join(room).lower()


def tell_widths(value):
    def below(width):
        return value < 2 ** width
    # enable: party; underlying: price; phase: quantity; away: second price; cancel own entry: entry
    answers = [below(7), below(17), below(17), below(17), below(20)]
    # reports: reason and limit of a cancelled one, other entry of a traded one, working price of a rested one
    answers += [below(5), below(17), below(20), below(17)]
    # setups: M, K, strike, with legal values in the others
    answers += [is_legal(value, 10, 100), is_legal(1, value, 100), is_legal(1, 10, value)]
    return " ".join("1" if answer else "0" for answer in answers)


def flips(bits):
    for i in range(len(bits)):
        yield bits[:i] + ("1" if bits[i] == "0" else "0") + bits[i + 1:]


lines = []


def setup(text):
    lines.append(("s" + text, "setup " + tell_setup(text)))


def message(text):
    lines.append(("m" + text, "message " + tell_message(text)))


def at_place(place, run):
    part = run[2 * place:2 * place + 22]
    lines.append(("u%02X" % place + run, "run " + tell_message(part)))


def report(text):
    lines.append(("r" + text, "report " + tell_report(text)))


def room(length, place, text):
    lines.append(("o%02X%02X" % (length, place) + text, "room " + tell_room(length, place, text)))


def widths(value):
    lines.append(("w%08X" % value, "widths " + tell_widths(value)))


# values that differ in every field, the greatest that fit, and the least
SOME_MESSAGE = {"party": 37, "side": 1, "price": 70001, "quantity": 99999, "second": 12345, "entry": 654321}
SOME_REPORT = {"reason": 22, "side": 1, "party": 85, "entry": 700001, "other": 432109, "price": 100000, "second": 99995, "quantity": 43210}


def named_values(layout, kinds, kind, how):
    values = {"kind": kind}
    for name in kinds[kind]:
        width = dict(layout)[name]
        some = SOME_MESSAGE if layout is MESSAGE else SOME_REPORT
        values[name] = {"some": some[name], "most": 2 ** width - 1, "least": 0}[how]
    return values


# document 01's own bytes
setup("44500320")
message("4060070800C8" + "00" * 5)

# messages: every kind, each of its bits turned over one at a time, kinds that are none, other lengths, places in a run
for kind in range(1, 13):
    for how in ("least", "some", "most"):
        message(hex_of(bits_of(MESSAGE, named_values(MESSAGE, KINDS, kind, how))))
    for bits in flips(bits_of(MESSAGE, named_values(MESSAGE, KINDS, kind, "some"))):
        message(hex_of(bits))
for kind in (0, 13, 14, 15):
    message(hex_of(bits_of(MESSAGE, {"kind": kind})))
    message(hex_of(bits_of(MESSAGE, dict(SOME_MESSAGE, kind=kind))))
quote = hex_of(bits_of(MESSAGE, named_values(MESSAGE, KINDS, 4, "some")))
away = hex_of(bits_of(MESSAGE, named_values(MESSAGE, KINDS, 9, "some")))
enable = hex_of(bits_of(MESSAGE, named_values(MESSAGE, KINDS, 12, "most")))
for length in range(31):
    message((quote + away + enable)[:2 * length])
    message((quote + "00" * 30)[:2 * length])
for place in list(range(48)) + [255]:
    at_place(place, quote + away + enable + quote[:10])
for length in range(24):
    at_place(11, (away + quote)[:2 * length])

# reports: the same
for kind in range(1, 7):
    for how in ("least", "some", "most"):
        report(hex_of(bits_of(REPORT, named_values(REPORT, REPORTS, kind, how))))
    for bits in flips(bits_of(REPORT, named_values(REPORT, REPORTS, kind, "some"))):
        report(hex_of(bits))
for kind in (0, 7):
    report(hex_of(bits_of(REPORT, {"kind": kind})))
    report(hex_of(bits_of(REPORT, dict(SOME_REPORT, kind=kind))))
trade = hex_of(bits_of(REPORT, named_values(REPORT, REPORTS, 3, "some")))
for length in range(31):
    report((trade + trade + trade)[:2 * length])

# setups: the edges of every value, each bit turned over, other lengths
EXAMPLE = {"put": 0, "exempt": 1, "m": 1, "k": 10, "strike": 100}
for m in range(16):
    setup(hex_of(bits_of(SETUP, dict(EXAMPLE, m=m))))
for k in (0, 1, 99, 100, 101, 126, 127):
    setup(hex_of(bits_of(SETUP, dict(EXAMPLE, k=k))))
for strike in (0, 1, 2, 99999, 100000, 100001, 131071):
    setup(hex_of(bits_of(SETUP, dict(EXAMPLE, strike=strike))))
for put in (0, 1):
    for exempt in (0, 1):
        for zero in range(4):
            setup(hex_of(bits_of(SETUP, dict(EXAMPLE, put=put, exempt=exempt, zero=zero))))
for bits in flips(bits_of(SETUP, EXAMPLE)):
    setup(hex_of(bits))
for length in range(31):
    setup(("44500320" * 8)[:2 * length])

# the room: places that are in it, at its edge and beyond it
for length in (0, 1, 13, 14, 15, 27, 28, 29, 41, 42, 43):
    for place in (0, 1, 2, 3, 255):
        room(length, place, trade)

# what fits a field and what does not
for value in (0, 1, 2, 4, 5, 6, 9, 10, 11, 31, 32, 63, 64, 99, 100, 101, 127, 128, 255, 256, 65535, 65536, 99999, 100000, 100001,
              131071, 131072, 524287, 524288, 1048575, 1048576, 16777216, 4294967295):
    widths(value)

for name, column in (("stdin", 0), ("stdout", 1)):
    with open("crates/test_packing/" + name, "w") as out:
        out.write("".join(line[column] + "\n" for line in lines))
