#!/usr/bin/env python3
"""Writes inputs of the program `shift` and the lines that it must write.

    make_shifts.py           write the examples, and crates/shift/stdin and stdout
    make_shifts.py --check   write nothing; fail if a stored file differs
    make_shifts.py FOLDER    write many small inputs into this folder, each as
                             NAME.shift with its lines in NAME.expected

The lines come from second_shift. Almost every input also states its answers,
known from the rules alone, and a disagreement stops this script. The tapes are
written here by a rule of their own, and tickets of two-byte bodies under the
key X are checked against a formula worked out by hand. The inputs are the same
in every run.
"""

import sys

sys.dont_write_bytecode = True

import second_calculation as second  # noqa: E402
import second_shift  # noqa: E402
import stored_files  # noqa: E402
from make_cases import Draw, encoded, single, with_byte, with_number  # noqa: E402

FORM = ("poly", 4093)
Q = 4093
SIZE = 12
SHORTEST_TICKET, LONGEST_TICKET = SIZE + 2, SIZE + 440
LONGEST_TEXT = 438
LONGEST_RECORD = 16383
LONGEST_INPUT = 49152

ZERO, ONE, X = [0] * 8, single("poly", 0, 1), single("poly", 1, 1)

WRONG_SIZE = "refused 3 0 0"
WRONG_LENGTH = "refused 5 0 0"
BAD_PADS = "refused 6 0 0"
ZERO_KEY = "refused 7 1 0"
NUMBER_TOO_LARGE = "refused 8 0 0"
CANCELLED = "refused 9 0 0"
RIDDEN = "refused 10 0 0"
FALSE_TAG = "refused 11 0 0"


def bad_key(power):
    return "refused 1 1 %d" % power


def bad_pad(power):
    return "refused 1 2 %d" % power


def bad_tag(power):
    return "refused 1 3 %d" % power


def torn(place):
    return "refused 15 4 %d" % place


def bad_record(place):
    return "refused 16 4 %d" % place


def passes(route):
    return "pass %d" % route


def rides(count):
    return "rides %d" % count


# --- Records, tickets and whole inputs ---------------------------------------


def check(ticket):
    return bytes([0x40 + len(ticket) // 256, len(ticket) % 256]) + ticket


def cancel(number):
    return bytes([0x80 + number // 256, number % 256])


def report(route):
    return bytes([0xC0, route])


class Bus:
    """A key and pads, as numbers by power, which may be out of range too."""

    def __init__(self, key, pads):
        self.key, self.pads = key, pads

    def ticket(self, number, route, text=b"", pad=None):
        """A ticket with the right tag; the pad is that of its number."""
        form = second.FORMS["%s-%d" % FORM]
        body = bytes([number // 4, number % 4 * 64 + route]) + text
        tag = second.tag(form, self.key, self.pads[number] if pad is None else pad, body)
        ticket = body + encoded(FORM, tag)
        if self.key == X and pad is None and not any(self.pads[number]) and not text:
            assert ticket == ticket_by_hand(number, route)
        return ticket

    def start(self, count=None):
        """The input up to the tape; the count is that of the pads if not given."""
        count = len(self.pads) if count is None else count
        return encoded(FORM, self.key) + bytes(divmod(count, 256)) + self.row()

    def row(self):
        return b"".join(encoded(FORM, pad) for pad in self.pads)

    def shift(self, *records):
        return self.start() + b"".join(records)


def ticket_by_hand(number, route):
    """The ticket with no text under the key X and a zero pad. Its one block is
    a + b X with a the upper 11 bits of the two bytes and b the lower 5 bits and
    six missing ones; the length block is 128 X. Two steps to the power of X
    give a X^2 + b X^3, one gives 128 X^2."""
    a, b = divmod(number * 64 + route, 32)
    return bytes([number // 4, number % 4 * 64 + route]) + encoded(FORM, [0, 0, a + 128, 64 * b, 0, 0, 0, 0])


def plain_bus(count):
    """The key X and this many zero pads."""
    return Bus(X, [ZERO] * count)


def drawn_bus(draw, count):
    return Bus(draw.value(*FORM), [draw.value(*FORM) for _ in range(count)])


def forged(ticket):
    """The ticket with its last bit the other way, which is a tag all the same."""
    last = ticket[-1] ^ 1
    # The last coefficient must stay below the modulus.
    assert ticket[-2] & 15 != 15 or last < 0xFD
    return with_byte(ticket, len(ticket) - 1, last)


def with_tag(ticket, powers):
    return ticket[:-SIZE] + encoded(FORM, powers)


def unreadable(ticket, power, number=Q):
    """The ticket with this number, which is out of range, in its tag."""
    digits = ticket[-SIZE:].hex()
    # Each coefficient is three hexadecimal digits.
    powers = [int(digits[start : start + 3], 16) for start in range(0, len(digits), 3)]
    return with_tag(ticket, with_number(powers, power, number))


# --- The inputs and their lines ----------------------------------------------


class Shifts:
    """Inputs by name, each with the bytes that the program must write."""

    def __init__(self):
        self.stored = {}

    def add(self, name, content, expected=None):
        """An input; expected are its lines but for the last, without newlines."""
        assert name not in self.stored, name
        lines = second_shift.lines_of(content)
        if expected is not None:
            assert lines == expected + ["end %d" % len(expected)], (name, lines, expected)
        self.stored[name] = content, "".join(line + "\n" for line in lines).encode("ascii")

    def refuse(self, name, content, refusal):
        """An input that is refused before its tape is read."""
        self.add(name, content, ["0 " + refusal])

    def answer(self, name, bus, *records_and_answers):
        """A tape given as a record, its answer, the next record, and so on."""
        records, answers = records_and_answers[0::2], records_and_answers[1::2]
        assert len(records) == len(answers), name
        self.add(name, bus.shift(*records), numbered(answers))


def numbered(answers):
    return ["%d %s" % line for line in enumerate(answers, 1)]


# --- A day: a story for each number, and the stories woven into one tape ------

TEXTS = (
    b"", b"Zone A, adult", b"Zone B, child", b"Zones A to C, day ticket", b"Dog", b"Bicycle, not before 9:00",
    b"Return, valid on the day of issue", b"Student, with card", b"00000000000", b"\x00\x00\x00", b"\xff" * 9,
)

# What happens to one number, one after the other, with the answer to each. An
# answer of None is the one that the step itself states.
STORIES = (
    (("right", None),),
    (("right", None), ("right", RIDDEN)),
    (("right", None), ("right", RIDDEN), ("right", RIDDEN)),
    (("right", None), ("cancel", RIDDEN)),
    (("right", None), ("cancel", RIDDEN), ("right", RIDDEN)),
    (("right", None), ("forged", RIDDEN)),
    (("right", None), ("unreadable", RIDDEN)),
    (("right", None), ("too long", WRONG_LENGTH), ("right", RIDDEN)),
    (("right", None), ("other route", RIDDEN)),
    (("other route", None), ("right", RIDDEN)),
    (("cancel", None),),
    (("cancel", None), ("right", CANCELLED)),
    (("cancel", None), ("cancel", CANCELLED), ("right", CANCELLED)),
    (("cancel", None), ("right", CANCELLED), ("cancel", CANCELLED), ("other route", CANCELLED)),
    (("cancel", None), ("forged", CANCELLED)),
    (("cancel", None), ("unreadable", CANCELLED)),
    (("cancel", None), ("empty", WRONG_LENGTH), ("right", CANCELLED)),
    (("forged", None), ("right", None), ("forged", RIDDEN)),
    (("forged", None), ("cancel", None), ("right", CANCELLED)),
    (("rewritten", None), ("right", None)),
    (("lengthened", None), ("right", None), ("right", RIDDEN)),
    (("unreadable", None), ("right", None), ("cancel", RIDDEN)),
    (("too short", None), ("right", None)),
    (("too long", None), ("too short", None), ("right", None)),
    (("empty", None), ("right", None)),
)


class Steps:
    """The records about one number, each with its answer while the number has
    neither ridden nor been cancelled."""

    def __init__(self, bus, draw, number, route, text):
        self.ticket = bus.ticket(number, route, text)
        self.number, self.route, self.draw = number, route, draw
        self.other = (route + 1 + draw.below(63)) % 64
        self.other_ticket = bus.ticket(number, self.other, text)

    def take(self, name):
        return getattr(self, name.replace(" ", "_"))()

    def right(self):
        return check(self.ticket), passes(self.route)

    def other_route(self):
        """A second ticket of the number, also with the right tag."""
        return check(self.other_ticket), passes(self.other)

    def cancel(self):
        return cancel(self.number), "cancelled"

    def forged(self):
        return check(forged(self.ticket)), FALSE_TAG

    def rewritten(self):
        """The other route in the body, and the tag of the first."""
        return check(self.other_ticket[:-SIZE] + self.ticket[-SIZE:]), FALSE_TAG

    def lengthened(self):
        """A byte 00 more in the text, or one less if it is full, and the old tag."""
        body, tag = self.ticket[:-SIZE], self.ticket[-SIZE:]
        changed = body[:-1] if len(body) == LONGEST_TEXT + 2 else body + b"\x00"
        return check(changed + tag), FALSE_TAG

    def unreadable(self):
        power = self.draw.below(8)
        return check(unreadable(self.ticket, power, Q + self.draw.below(3))), bad_tag(power)

    def too_short(self):
        return check(self.ticket[: SHORTEST_TICKET - 1]), WRONG_LENGTH

    def too_long(self):
        return check(self.ticket.ljust(LONGEST_TICKET + 1, b"\x00")), WRONG_LENGTH

    def empty(self):
        return check(b""), WRONG_LENGTH


def tell(steps, story):
    """The records of a story with their answers."""
    told = []
    for name, answer in story:
        record, own = steps.take(name)
        told.append((record, own if answer is None else answer))
    return told


def weave(draw, stories, routes, between):
    """All records of the stories, each story in its order, with reports on the
    routes now and then: about one record in so many. A report's answer is the
    count of passes above it."""
    left, woven = [list(story) for story in stories], []
    while left:
        if draw.below(between) == 0:
            route = routes[draw.below(len(routes))]
            passed = [answer for _, answer in woven].count(passes(route))
            woven.append((report(route), rides(passed)))
        else:
            place = draw.below(len(left))
            woven.append(left[place].pop(0))
            left = [story for story in left if story]
    return woven


def stories_of_numbers(draw, bus, routes, numbers):
    """A story for each number, all of them in turn, with texts of many lengths."""
    told = []
    for turn, number in enumerate(numbers):
        text = TEXTS[draw.below(len(TEXTS))]
        if turn % 8 == 7:
            text = draw.bytes(1 + draw.below(LONGEST_TEXT))
        if turn % 24 == 5:
            text = draw.bytes(LONGEST_TEXT)
        route = routes[draw.below(len(routes))]
        told.append(tell(Steps(bus, draw, number, route, text), STORIES[turn % len(STORIES)]))
    return told


def story_beyond(bus, draw, number):
    """A number that has no pad: it cannot be checked, but it can be cancelled."""
    ticket = bus.ticket(number, draw.below(64), b"Zone A, adult", pad=draw.value(*FORM))
    return [
        (check(ticket), NUMBER_TOO_LARGE), (cancel(number), "cancelled"),
        (check(ticket), NUMBER_TOO_LARGE), (cancel(number), CANCELLED),
    ]


def story_of_bad_pad(bus, draw, number, power):
    """A number whose pad cannot be decoded stays blank until it is cancelled."""
    ticket = bus.ticket(number, 5, b"Zone A, adult", pad=draw.value(*FORM))
    return [
        (check(ticket), bad_pad(power)), (check(unreadable(ticket, 0)), bad_pad(power)),
        (check(ticket), bad_pad(power)), (cancel(number), "cancelled"), (check(ticket), CANCELLED),
    ]


def make_day(draw):
    """A long day, which ends inside a ticket: the input and its lines but for
    the last."""
    count, broken, unused = 88, 77, 61
    bus = drawn_bus(draw, count)
    bus.pads[broken] = with_number(bus.pads[broken], 5, Q)
    bus.pads[unused] = [4095] * 8
    routes = (0, 1, 2, 5, 12, 31, 32, 33, 47, 62, 63)
    numbers = [number for number in range(count) if number not in (broken, unused)]
    stories = stories_of_numbers(draw, bus, routes, numbers)
    stories += [story_beyond(bus, draw, number) for number in (count, 512, 1023)]
    stories.append(story_of_bad_pad(bus, draw, broken, 5))
    woven = weave(draw, stories, routes, 8)
    # At the end a report on every route, as many as there have been passes.
    passed = [answer for _, answer in woven]
    woven += [(report(route), rides(passed.count(passes(route)))) for route in range(64)]
    tape = b"".join(record for record, _ in woven)
    last = check(bus.ticket(unused, 5, b"Zone A, adult", pad=ZERO))[:-1]
    answers = [answer for _, answer in woven] + [torn(len(tape))]
    content = bus.start() + tape + last
    assert len(content) <= LONGEST_INPUT
    return content, numbered(answers)


# --- Small inputs, each for an edge ------------------------------------------


def worked_example(shifts):
    """Known byte by byte."""
    ticket = "00 05 00 00 00 08 01 40 00 00 00 00 00 00"
    content = "00 00 01 00 00 00 00 00 00 00 00 00  00 01  00 00 00 00 00 00 00 00 00 00 00 00"
    tape = " 40 0E %s 40 0E %s 80 00 C0 05" % (ticket, ticket)
    shifts.add(
        "worked", bytes.fromhex(content + tape),
        ["1 pass 5", "2 refused 10 0 0", "3 refused 10 0 0", "4 rides 1"],
    )


def sizes_of_inputs(shifts, draw):
    bus = plain_bus(1)
    whole = bus.start()
    shifts.refuse("size-0", b"", WRONG_SIZE)
    for size in (1, 11, 12, 13):
        shifts.refuse("size-%d" % size, whole[:size], WRONG_SIZE)
    shifts.refuse("size-13-of-ff", b"\xff" * 13, WRONG_SIZE)
    shifts.refuse("size-14", whole[:14], BAD_PADS)
    shifts.refuse("size-14-of-ff", b"\xff" * 14, BAD_PADS)
    shifts.refuse("size-14-of-00", bytes(14), BAD_PADS)
    shifts.answer("size-26-no-tape", bus)
    # The longest input, with few long records and with as many as there can be.
    room = LONGEST_INPUT - len(whole)
    long_check = check(draw.bytes(LONGEST_RECORD))
    filling = check(draw.bytes(room - 2 * len(long_check) - 2))
    tape = (long_check, WRONG_LENGTH, long_check, WRONG_LENGTH, filling, WRONG_LENGTH)
    shifts.answer("size-49152", bus, *tape)
    shifts.answer("size-49152-of-reports", bus, *[report(63), rides(0)] * (room // 2))
    shifts.refuse("size-49153", bus.shift(*tape[0::2]) + b"\x00", WRONG_SIZE)
    shifts.refuse("size-49153-and-no-pads", bytes(49153), WRONG_SIZE)
    shifts.refuse("size-65550", bytes(65536) + whole[:14], WRONG_SIZE)
    shifts.refuse("size-100000-of-ff", b"\xff" * 100000, WRONG_SIZE)


def counts_of_pads(shifts):
    ticket = plain_bus(1).ticket(0, 5)
    for count in (0, 1025, 1026, 2048, 4095, 32768, 65535):
        pads = plain_bus(min(count, 2048))
        shifts.refuse("pads-%d" % count, pads.start(count) + check(ticket), BAD_PADS)
    for count in (1, 2, 255, 256, 257, 1023, 1024):
        bus = plain_bus(count)
        last = bus.ticket(count - 1, 5)
        shifts.answer("pads-%d" % count, bus, check(last), passes(5), report(5), rides(1))
        shifts.refuse("pads-%d-one-byte-short" % count, bus.start()[:-1], BAD_PADS)
    # One pad, and a count whose bytes are the other way round.
    shifts.refuse("pads-count-other-way-round", plain_bus(1).start(256) + check(ticket), BAD_PADS)
    shifts.answer("pads-two-zero-bytes-of-tape", plain_bus(1), b"\x00\x00", bad_record(0))


def keys(shifts, draw):
    pads = [draw.value(*FORM) for _ in range(3)]
    for power in range(8):
        key = with_number(draw.value(*FORM), power, Q)
        shifts.refuse("key-4093-at-power-%d" % power, Bus(key, pads).shift(report(5)), bad_key(power))
    for numbers, power in (([4095] * 8, 0), ([4092, 4094] + [4095] * 6, 1), ([4092] * 6 + [4093, 4093], 6)):
        shifts.refuse("key-several-from-power-%d" % power, Bus(numbers, pads).shift(report(5)), bad_key(power))
    shifts.refuse("key-zero", Bus(ZERO, pads).shift(report(5)), ZERO_KEY)
    shifts.refuse("key-zero-modulo-4093", Bus(single("poly", 0, Q), pads).shift(report(5)), bad_key(0))
    shifts.refuse("key-zero-modulo-4093-at-power-7", Bus(single("poly", 7, Q), pads).shift(), bad_key(7))
    for key, name in ((ONE, "one"), (single("poly", 7, 1), "1-at-power-7"), ([4092] * 8, "all-4092"), (single("poly", 0, 4092), "minus-one")):
        bus = Bus(key, pads)
        shifts.answer("key-" + name, bus, check(bus.ticket(2, 9, b"Hi")), passes(9), report(9), rides(1))


def order_before_the_tape(shifts):
    """Two faults at once: the earlier test decides."""
    over = single("poly", 7, Q)
    pads = [ZERO]
    shifts.refuse("order-no-pads-and-bad-key", Bus(over, []).start(), BAD_PADS)
    shifts.refuse("order-no-pads-and-zero-key", Bus(ZERO, []).start(), BAD_PADS)
    shifts.refuse("order-1025-pads-and-bad-key", Bus(over, pads * 1025).start(), BAD_PADS)
    shifts.refuse("order-short-pads-and-bad-key", Bus(over, pads).start()[:-1], BAD_PADS)
    shifts.refuse("order-short-pads-and-zero-key", Bus(ZERO, pads).start()[:-1], BAD_PADS)
    shifts.refuse("order-bad-key-and-bad-pad", Bus(over, [over]).shift(report(0)), bad_key(7))
    shifts.refuse("order-zero-key-and-bad-pad", Bus(ZERO, [over]).shift(report(0)), ZERO_KEY)
    shifts.refuse("order-bad-key-and-bad-record", Bus(over, pads).shift(b"\x00\x00"), bad_key(7))
    shifts.refuse("order-zero-key-and-torn-tape", Bus(ZERO, pads).shift(b"\x40"), ZERO_KEY)
    shifts.refuse("order-bad-key-and-no-tape", Bus(over, pads).shift(), bad_key(7))


def lengths_of_tickets(shifts, draw):
    bus = drawn_bus(draw, 2)
    for length in (0, 1, 2, 11, 12, 13, 453, 454, 708, 4096, 16383):
        shifts.answer("ticket-of-%d-bytes" % length, bus, check(bytes(length)), WRONG_LENGTH)
    # Blocks have 11 bytes, so these are edges of blocks too.
    for length in (14, 15, 22, 23, 24, 25, 33, 34, 45, 46, 268, 269, 441, 442, 451, 452):
        ticket = bus.ticket(1, 5, draw.bytes(length - SHORTEST_TICKET))
        assert len(ticket) == length
        shifts.answer("ticket-of-%d-bytes" % length, bus, check(ticket), passes(5), report(5), rides(1))
    longest = bus.ticket(1, 5, bytes(LONGEST_TEXT))
    shifts.answer(
        "ticket-one-byte-more-or-less", bus,
        check(longest + b"\x00"), WRONG_LENGTH, check(longest[:-1]), FALSE_TAG,
        check(b"\x00" + longest), WRONG_LENGTH, check(longest), passes(5),
    )
    shifts.answer(
        "ticket-final-zeros-count", bus,
        check(longest[:-SIZE - 1] + longest[-SIZE:]), FALSE_TAG, check(longest), passes(5),
    )


def numbers_and_routes(shifts, draw):
    one, two, most = plain_bus(1), plain_bus(2), plain_bus(1024)
    shifts.answer(
        "number-1-of-1-pad", one, check(two.ticket(1, 5)), NUMBER_TOO_LARGE,
        check(one.ticket(0, 5)), passes(5), report(5), rides(1),
    )
    shifts.answer("number-1023-of-1024-pads", most, check(most.ticket(1023, 63)), passes(63), report(63), rides(1))
    shifts.answer("number-1023-of-1023-pads", plain_bus(1023), check(most.ticket(1023, 63)), NUMBER_TOO_LARGE)
    shifts.answer("number-256-of-256-pads", plain_bus(256), check(most.ticket(256, 1)), NUMBER_TOO_LARGE, check(most.ticket(0, 1)), passes(1))
    for route in (0, 1, 31, 32, 63):
        other = (route + 32) % 64
        ticket = two.ticket(1, route)
        shifts.answer("route-%d" % route, two, check(ticket), passes(route), report(route), rides(1), report(other), rides(0))
    # Numbers that would be the same if cut to 8 or 9 bits.
    records = []
    for number in (0, 256, 512, 768, 1023, 255):
        records += [check(most.ticket(number, 7)), passes(7), check(most.ticket(number, 7)), RIDDEN]
    shifts.answer("number-of-ten-bits", most, *records, report(7), rides(6))
    shifts.answer(
        "cancel-of-ten-bits", most, cancel(256), "cancelled", check(most.ticket(0, 7)), passes(7),
        check(most.ticket(512, 7)), passes(7), check(most.ticket(256, 7)), CANCELLED, cancel(512), RIDDEN, cancel(768), "cancelled",
    )
    shifts.answer("cancel-1023-of-1-pad", one, cancel(1023), "cancelled", cancel(1023), CANCELLED, cancel(0), "cancelled")
    pads = drawn_bus(draw, 3)
    swapped = Bus(pads.key, [pads.pads[1], pads.pads[0], pads.pads[2]])
    shifts.answer(
        "pads-in-another-order", pads, check(swapped.ticket(0, 4)), FALSE_TAG, check(swapped.ticket(1, 4)), FALSE_TAG,
        check(swapped.ticket(2, 4)), passes(4),
    )


def order_of_a_check(shifts, draw):
    """Two faults at once: the earlier test decides. A pad that cannot be decoded
    and a ride do not come together, since no number with such a pad rides."""
    bus = drawn_bus(draw, 3)
    good = bus.ticket(1, 5, b"Hi")
    bus.pads[2] = with_number(bus.pads[2], 3, Q)
    broken = bus.ticket(2, 5, b"Hi", pad=ZERO)
    beyond = bus.ticket(3, 5, b"Hi", pad=ZERO)
    short, long = good[:13], good.ljust(453, b"\x00")
    shifts.answer("order-5-and-8", bus, check(b"\xff" * 13), WRONG_LENGTH, check(b"\xff" * 453), WRONG_LENGTH)
    shifts.answer("order-5-and-9", bus, cancel(1), "cancelled", check(short), WRONG_LENGTH, check(long), WRONG_LENGTH)
    shifts.answer("order-5-and-10", bus, check(good), passes(5), check(short), WRONG_LENGTH, check(long), WRONG_LENGTH)
    shifts.answer("order-5-and-bad-pad", bus, check(broken[:13]), WRONG_LENGTH)
    shifts.answer("order-5-and-bad-tag", bus, check(good[:2] + b"\xff" * 11), WRONG_LENGTH, check(good[:2] + b"\xff" * 451), WRONG_LENGTH)
    shifts.answer("order-8-and-9", bus, cancel(3), "cancelled", check(beyond), NUMBER_TOO_LARGE, cancel(3), CANCELLED)
    shifts.answer("order-8-and-bad-tag", bus, check(beyond[:4] + b"\xff" * 12), NUMBER_TOO_LARGE)
    shifts.answer("order-8-and-11", bus, check(forged(beyond)), NUMBER_TOO_LARGE)
    shifts.answer("order-9-and-bad-pad", bus, cancel(2), "cancelled", check(broken), CANCELLED)
    shifts.answer("order-9-and-bad-tag", bus, cancel(1), "cancelled", check(unreadable(good, 0)), CANCELLED)
    shifts.answer("order-9-and-11", bus, cancel(1), "cancelled", check(forged(good)), CANCELLED)
    shifts.answer("order-10-and-bad-tag", bus, check(good), passes(5), check(unreadable(good, 0)), RIDDEN)
    shifts.answer("order-10-and-11", bus, check(good), passes(5), check(forged(good)), RIDDEN)
    shifts.answer("order-bad-pad-and-bad-tag", bus, check(broken[:4] + b"\xff" * 12), bad_pad(3), check(unreadable(broken, 0)), bad_pad(3))
    shifts.answer("order-bad-pad-and-11", bus, check(broken), bad_pad(3), check(forged(broken)), bad_pad(3))
    shifts.answer("order-bad-tag-and-11", bus, check(unreadable(good, 7)), bad_tag(7), check(forged(good)), FALSE_TAG, check(good), passes(5))


def pads_and_tags(shifts, draw):
    """Each power at which a pad or a tag can be out of range."""
    for power in range(8):
        bus = drawn_bus(draw, 2)
        good = bus.ticket(0, 11, b"Dog")
        edge = with_tag(good, with_number([4092] * 8, power, 4095))
        shifts.answer(
            "tag-at-power-%d" % power, bus,
            check(unreadable(good, power)), bad_tag(power), check(edge), bad_tag(power),
            check(unreadable(edge, 0)), bad_tag(0), check(unreadable(unreadable(good, power), 7)), bad_tag(power),
            check(good), passes(11), report(11), rides(1),
        )
        bus.pads[1] = with_number(bus.pads[1], power, Q)
        shifts.answer(
            "pad-at-power-%d" % power, bus,
            check(bus.ticket(1, 11, pad=ZERO)), bad_pad(power), check(good), passes(11), report(11), rides(1),
        )
    bus = Bus(X, [ZERO, [4095] * 8, [4092] * 6 + [4093, 4095], [4092] * 8])
    first, second_of_two = bus.ticket(1, 3, pad=ZERO), bus.ticket(2, 3, pad=ZERO)
    shifts.answer(
        "pad-with-several", bus, check(first), bad_pad(0), check(second_of_two), bad_pad(6),
        check(bus.ticket(3, 3)), passes(3), check(bus.ticket(0, 3)), passes(3), report(3), rides(2),
    )
    # A pad of 4093 is not the zero pad, and a tag of 4093 not the zero tag.
    bus = Bus(X, [single("poly", 0, Q), ZERO])
    shifts.answer("pad-zero-modulo-4093", bus, check(ticket_by_hand(0, 5)), bad_pad(0), check(ticket_by_hand(1, 5)), passes(5))
    again = unreadable(ticket_by_hand(1, 5), 0)
    shifts.answer("tag-right-modulo-4093", bus, check(again), bad_tag(0), report(5), rides(0), check(ticket_by_hand(1, 5)), passes(5))


def every_bit(shifts, draw):
    """A ticket with any one bit the other way is refused, and leaves no mark."""
    bus = drawn_bus(draw, 1024)
    good = bus.ticket(341, 21, b"Dog")
    records = []
    for bit in range(8 * len(good)):
        place, weight = bit // 8, 128 >> bit % 8
        changed = with_byte(good, place, good[place] ^ weight)
        power = (bit - 8 * (len(good) - SIZE)) // 12
        over = power >= 0 and int(changed[-SIZE:].hex()[3 * power :][:3], 16) >= Q
        records += [check(changed), bad_tag(power) if over else FALSE_TAG]
    shifts.answer("every-bit-of-a-ticket", bus, *records, check(good), passes(21), report(21), rides(1))


def marks(shifts, draw):
    bus = drawn_bus(draw, 4)
    a, b = bus.ticket(1, 5, b"Hi"), bus.ticket(2, 5, b"Dog")
    other = bus.ticket(1, 6, b"Hi")
    shifts.answer("ride-twice", bus, check(a), passes(5), check(a), RIDDEN, check(a), RIDDEN, report(5), rides(1))
    shifts.answer("ride-then-cancel", bus, check(a), passes(5), cancel(1), RIDDEN, check(a), RIDDEN, cancel(1), RIDDEN, report(5), rides(1))
    shifts.answer("cancel-then-ride", bus, cancel(1), "cancelled", check(a), CANCELLED, check(a), CANCELLED, report(5), rides(0))
    shifts.answer("cancel-twice", bus, cancel(1), "cancelled", cancel(1), CANCELLED, cancel(1), CANCELLED, check(a), CANCELLED)
    shifts.answer("cancel-one-of-two", bus, cancel(1), "cancelled", check(b), passes(5), check(a), CANCELLED, report(5), rides(1))
    shifts.answer("cancel-is-not-undone", bus, cancel(1), "cancelled", check(forged(a)), CANCELLED, check(b), passes(5), check(a), CANCELLED)
    shifts.answer(
        "two-right-tickets-of-one-number", bus, check(other), passes(6), check(a), RIDDEN,
        report(5), rides(0), report(6), rides(1),
    )
    shifts.answer(
        "forged-then-right", bus, check(forged(a)), FALSE_TAG, report(5), rides(0), check(a), passes(5), report(5), rides(1),
        check(forged(a)), RIDDEN, report(5), rides(1),
    )
    shifts.answer("forged-then-cancel", bus, check(forged(a)), FALSE_TAG, cancel(1), "cancelled", check(a), CANCELLED, report(5), rides(0))
    shifts.answer("rerouted", bus, check(other[:-SIZE] + a[-SIZE:]), FALSE_TAG, report(6), rides(0), check(a), passes(5), report(6), rides(0))
    shifts.answer("tag-of-another-number", bus, check(a[:-SIZE] + b[-SIZE:]), FALSE_TAG, check(b), passes(5), check(a), passes(5))
    shifts.answer(
        "refused-for-each-reason-then-right", bus, check(b""), WRONG_LENGTH, check(a + bytes(440)), WRONG_LENGTH,
        check(b"\xff" * 16), NUMBER_TOO_LARGE, check(unreadable(a, 4)), bad_tag(4), check(forged(a)), FALSE_TAG,
        report(5), rides(0), check(a), passes(5), report(5), rides(1),
    )
    shifts.answer("other-key", bus, check(Bus(ONE, bus.pads).ticket(1, 5, b"Hi")), FALSE_TAG, check(a), passes(5))


def reports(shifts, draw):
    bus = drawn_bus(draw, 6)
    tickets = [bus.ticket(number, route, b"Dog") for number, route in enumerate((5, 6, 5, 5, 63, 0))]
    shifts.answer("report-before-any-ride", bus, report(0), rides(0), report(5), rides(0), report(63), rides(0))
    shifts.answer("report-two-rides", bus, check(tickets[0]), passes(5), check(tickets[2]), passes(5), report(5), rides(2), report(6), rides(0))
    shifts.answer(
        "report-after-each-ride", bus, report(5), rides(0), check(tickets[0]), passes(5), report(5), rides(1), check(tickets[1]), passes(6),
        report(5), rides(1), check(tickets[3]), passes(5), report(5), rides(2), check(tickets[3]), RIDDEN, report(5), rides(2),
        check(tickets[2]), passes(5), report(5), rides(3), report(5), rides(3), report(6), rides(1),
    )
    shifts.answer(
        "report-first-and-last-route", bus, check(tickets[5]), passes(0), check(tickets[4]), passes(63),
        report(0), rides(1), report(63), rides(1), report(1), rides(0), report(62), rides(0),
    )
    every_route = [each for route in range(64) for each in (report(route), rides(1 if route in (0, 6) else 3 if route == 5 else 0))]
    shifts.answer(
        "report-on-every-route", bus, check(tickets[0]), passes(5), check(tickets[1]), passes(6), check(tickets[2]), passes(5),
        check(tickets[3]), passes(5), cancel(4), "cancelled", check(tickets[4]), CANCELLED, check(tickets[5]), passes(0), *every_route,
    )
    # Counts that do not fit eight bits, and the largest that there is.
    bus = plain_bus(1024)
    all_ride = []
    for number in range(1024):
        all_ride += [check(ticket_by_hand(number, 17)), passes(17)]
        if number in (254, 255, 256, 511, 1022):
            all_ride += [report(17), rides(number + 1)]
    shifts.answer("report-1024-rides", bus, *all_ride, report(17), rides(1024), check(ticket_by_hand(0, 17)), RIDDEN, report(17), rides(1024))
    all_cancelled = [each for number in range(1024) for each in (cancel(number), "cancelled")]
    shifts.answer("cancel-of-every-number", plain_bus(1), *all_cancelled, check(ticket_by_hand(0, 17)), CANCELLED, cancel(512), CANCELLED)


def faults_of_tapes(shifts, draw):
    bus = plain_bus(2)
    ticket = ticket_by_hand(1, 5)
    before, answer = check(ticket), passes(5)
    for byte in (0x00, 0x40, 0x80, 0xC0, 0xFF):
        shifts.answer("tape-one-byte-%02x" % byte, bus, bytes([byte]), torn(0))
        shifts.answer("tape-one-byte-%02x-after-a-check" % byte, bus, before, answer, bytes([byte]), torn(16))
    shifts.answer("tape-odd-byte-after-reports", bus, report(5), rides(0), report(6), rides(0), b"\xc0", torn(4))
    for start in ("0000", "0001", "0005", "2000", "3fff"):
        shifts.answer("tape-kind-0-%s" % start, bus, before, answer, bytes.fromhex(start), bad_record(16))
    for bit in range(10, 14):
        start = (0x8000 + 2**bit).to_bytes(2, "big")
        shifts.answer("tape-cancel-with-bit-%d" % bit, bus, cancel(1), "cancelled", start, bad_record(2))
    for bit in range(6, 14):
        start = (0xC000 + 2**bit + 5).to_bytes(2, "big")
        shifts.answer("tape-report-with-bit-%d" % bit, bus, before, answer, report(5), rides(1), start, bad_record(18))
    shifts.answer("tape-cancel-1023-then-1024", bus, b"\x83\xff", "cancelled", b"\x84\x00", bad_record(2))
    shifts.answer("tape-report-63-then-64", bus, b"\xc0\x3f", rides(0), b"\xc0\x40", bad_record(2))
    shifts.answer("tape-cancel-all-bits", bus, b"\xbf\xff", bad_record(0))
    shifts.answer("tape-report-all-bits", bus, b"\xff\xff", bad_record(0))
    for there in (0, 1, 13):
        shifts.answer("tape-%d-bytes-of-14" % there, bus, before, answer, check(ticket)[: 2 + there], torn(16))
    shifts.answer("tape-whole-ticket-at-the-end", bus, report(5), rides(0), check(ticket), answer)
    long = check(bytes(LONGEST_RECORD))
    shifts.answer("tape-16382-bytes-of-16383", bus, cancel(0), "cancelled", long[:-1], torn(2))
    shifts.answer("tape-16383-bytes-of-16383", bus, cancel(0), "cancelled", long, WRONG_LENGTH)
    shifts.answer("tape-fault-at-a-far-place", bus, long, WRONG_LENGTH, long, WRONG_LENGTH, before, answer, b"\x00\x00", bad_record(32786))
    shifts.answer("tape-torn-at-a-far-place", bus, long, WRONG_LENGTH, long, WRONG_LENGTH, before, answer, long[:-100], torn(32786))
    # The reading ends at the fault, though records follow that could be read.
    for name, fault in (("kind-0", b"\x00\x00"), ("cancel-1024", b"\x84\x00"), ("report-64", b"\xc0\x40")):
        tape = fault + report(5) + check(ticket)
        shifts.answer("tape-nothing-after-%s" % name, bus, before, answer, tape, bad_record(16))
    shifts.answer("tape-nothing-after-torn", bus, cancel(0), "cancelled", b"\x7f\xff" + check(ticket) * 20, torn(2))
    # A ticket that holds the bytes of records.
    inner = drawn_bus(draw, 1)
    text = report(5) + cancel(0) + b"\x00\x00" + check(b"Hi")
    shifts.answer("tape-records-in-a-ticket", inner, check(inner.ticket(0, 5, text)), passes(5), report(5), rides(1))


def small_days(shifts, draw):
    """Days of few numbers, with each kind of end."""
    for turn in range(16):
        bus = drawn_bus(draw, 6 + turn)
        routes = (3, 40, 63)[: 1 + turn % 3]
        stories = stories_of_numbers(draw, bus, routes, range(len(bus.pads)))
        stories.append(story_beyond(bus, draw, len(bus.pads)))
        woven = weave(draw, stories, routes, 3)
        tape = b"".join(record for record, _ in woven)
        end = (b"", b"\x40", b"\x84\x00", b"\x40\x0e" + bytes(13))[turn % 4]
        fault = ([], [torn(len(tape))], [bad_record(len(tape))], [torn(len(tape))])[turn % 4]
        answers = [answer for _, answer in woven] + fault
        shifts.add("day-%02d" % turn, bus.start() + tape + end, numbered(answers))


def drawn_bytes(shifts, draw):
    """Tapes of records put together blindly, cut off anywhere, and tapes of
    bytes drawn one by one. Only the calculation knows the answers."""
    for turn in range(12):
        bus = drawn_bus(draw, 4)
        tickets = [bus.ticket(number, 9 + number % 2, draw.bytes(draw.below(30))) for number in range(4)]
        records = []
        for _ in range(40):
            ticket = tickets[draw.below(4)]
            choices = (check(ticket), check(forged(ticket)), cancel(draw.below(5)), report(9 + draw.below(2)), check(draw.bytes(draw.below(30))))
            records.append(choices[draw.below(len(choices))])
        content = bus.shift(*records)
        shifts.add("drawn-records-%02d" % turn, content[: len(content) - draw.below(3 * turn + 1)])
    for turn in range(6):
        shifts.add("drawn-bytes-%02d" % turn, drawn_bus(draw, 1).start() + draw.bytes(300))
        shifts.add("drawn-input-%02d" % turn, draw.bytes(12) + b"\x00\x02" + draw.bytes(300))


def make_small():
    shifts, draw = Shifts(), Draw(22)
    worked_example(shifts)
    sizes_of_inputs(shifts, draw)
    counts_of_pads(shifts)
    keys(shifts, draw)
    order_before_the_tape(shifts)
    lengths_of_tickets(shifts, draw)
    numbers_and_routes(shifts, draw)
    order_of_a_check(shifts, draw)
    pads_and_tags(shifts, draw)
    every_bit(shifts, draw)
    marks(shifts, draw)
    reports(shifts, draw)
    faults_of_tapes(shifts, draw)
    small_days(shifts, draw)
    drawn_bytes(shifts, draw)
    return shifts.stored


# --- The stored files --------------------------------------------------------


def make_stored():
    """The content of each stored file, by its path from the top directory."""
    shifts = Shifts()
    worked_example(shifts)
    shifts.add("day", *make_day(Draw(21)))
    (worked, worked_lines), (day, day_lines) = shifts.stored["worked"], shifts.stored["day"]
    return {
        "examples/worked.shift": worked,
        "examples/worked.expected": worked_lines,
        "examples/day.shift": day,
        "examples/day.expected": day_lines,
        "crates/shift/stdin": day,
        "crates/shift/stdout": day_lines,
    }


def main(arguments):
    second.check_constants()
    stored_files.run(arguments, __doc__, make_stored, make_small, ".shift")


if __name__ == "__main__":
    main(sys.argv[1:])
