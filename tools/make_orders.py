#!/usr/bin/env python3
"""Writes inputs of the program `issue` and the answers that it must give.

    make_orders.py           write the example, and crates/issue/stdin and stdout
    make_orders.py --check   write nothing; fail if a stored file differs
    make_orders.py FOLDER    write many small inputs into this folder, each as
                             NAME.txt with its answers in NAME.expected

Every line states its answer, from the rules alone, and the tally is counted
from these; second_issue must give the same. Each sealed ticket is also put on a
tape and must pass in second_shift. The inputs are the same in every run.
"""

import io
import sys

sys.dont_write_bytecode = True

import second_calculation as second  # noqa: E402
import second_issue  # noqa: E402
import second_shift  # noqa: E402
import stored_files  # noqa: E402
from make_cases import Draw, encoded, notation, single, with_number  # noqa: E402
from make_shifts import (  # noqa: E402
    BAD_PADS, FORM, LONGEST_TEXT, ONE, Q, WRONG_LENGTH, X, ZERO, ZERO_KEY, Bus,
    bad_key, bad_pad, check, drawn_bus, numbered, passes, plain_bus, ticket_by_hand,
)

LONGEST_LINE = 32768

WRONG_KEY_SIZE = "refused 3 1 0"
ALL_DRAWN = "refused 13 0 0"
ROUTE_TOO_LARGE = "refused 17 0 0"
TOO_LONG = "? line too long"
NOT_TEXT = "? not text"
NO_ORDER = "? no such order"
WRONG_NUMBER = "? wrong number of arguments"
NOT_A_NUMBER = "? not a number"
NOT_BYTES = "? not bytes"
KEY_GIVEN = "? key already given"
NO_KEY = "? no key"
NO_PADS = "? no pads"


class Orders:
    """Lines with their answers. Numbers are drawn in order, so the next one is
    the count of those sealed and voided."""

    def __init__(self):
        self.lines, self.answers = [], []
        self.bus = None
        self.sealed, self.voided = [], 0

    def next_number(self):
        return len(self.sealed) + self.voided

    # Lines that draw nothing.

    def raw(self, line, answer=None, ending=b"\n"):
        """A line of bytes; None where it has no answer."""
        self.lines.append(line + ending)
        self.answers += [] if answer is None else [answer]

    def ask(self, *words, answer=None):
        self.raw(" ".join(notation(word) for word in words).encode("ascii"), answer)

    def say(self, *comments):
        for comment in comments:
            self.raw(b"# " + comment.encode("ascii"))

    def group(self, title):
        if self.lines:
            self.raw(b"")
        self.say(title)

    def key(self, bus):
        self.ask("key", encoded(FORM, bus.key))

    def pads(self, bus):
        """The row of pads for the orders that follow."""
        self.bus = bus
        self.ask("pads", bus.row())

    def start(self, bus):
        self.key(bus)
        self.pads(bus)

    # Orders that draw a number.

    def seal(self, route, text=b"", line=None):
        """A ticket is sealed; the line may be written in another way."""
        number = self.next_number()
        ticket = self.bus.ticket(number, route, text)
        self.sealed.append((self.bus, route, ticket))
        answer = "%d sealed %s" % (number, notation(ticket))
        if line is None:
            self.ask("seal", route, text, answer=answer)
        else:
            self.raw(line, answer)

    def void(self, line=b"void"):
        self.raw(line, "%d voided" % self.next_number())
        self.voided += 1

    def spoil(self, route, text, refusal):
        """A number is drawn, and void since sealing it was refused."""
        self.ask("seal", route, text, answer=refusal)
        self.voided += 1

    # The whole.

    def finish(self, last_ending=b"\n"):
        """The lines and the answers, after the second calculation has agreed."""
        tally = "tally %d %d %d" % (self.next_number(), len(self.sealed), self.voided)
        answers = self.answers + [tally]
        if self.lines:
            self.lines[-1] = self.lines[-1][:-1] + last_ending
        calculated = second_issue.answer_lines(io.BytesIO(b"".join(self.lines)))
        for stated, each in zip(answers, calculated):
            assert stated == each, (stated, each)
        assert len(answers) == len(calculated)
        self.ride_all()
        return b"".join(self.lines), "".join(answer + "\n" for answer in answers).encode("ascii")

    def ride_all(self):
        """Every sealed ticket passes at the door, with the pads it was made with."""
        for first in range(0, len(self.sealed), 32):
            some = self.sealed[first : first + 32]
            for bus in {id(bus): bus for bus, _, _ in some}.values():
                of_bus = [(route, ticket) for of, route, ticket in some if of is bus]
                lines = second_shift.lines_of(bus.shift(*(check(ticket) for _, ticket in of_bus)))
                assert lines[:-1] == numbered([passes(route) for route, _ in of_bus]), lines


# --- The example -------------------------------------------------------------


def make_example():
    orders = Orders()
    adult = b"Zone A, adult"
    known = [ZERO, [1, 2, 3, 4, 5, 6, 7, 8]]
    pads = known + [[10 * place + power for power in range(8)] for place in range(2, 10)]
    pads[4] = with_number(pads[4], 7, Q)
    orders.say(
        "Issuing tickets: a key, pads, then one order a line, one answer a line.",
        "Bytes are pairs of hexadecimal digits; - stands for no bytes.",
    )
    orders.group("An order needs a key and pads.")
    orders.ask("seal", 5, "-", answer=NO_KEY)
    orders.say("Refused: the key must not be zero.")
    orders.ask("key", encoded(FORM, ZERO), answer=ZERO_KEY)
    orders.say("The key X, and eight pads, for the numbers 0 to 7.")
    orders.start(Bus(X, pads[:8]))

    orders.group("The route 5 and no text: the number is 0.")
    orders.seal(5)
    assert orders.answers[-1] == "0 sealed 0005000000080140000000000000"
    orders.say("A text: Zone A, adult.")
    orders.seal(5, adult)
    assert orders.answers[-1] == "1 sealed 00455A6F6E6520412C206164756C74209B0A7A85612434E46ED298"
    orders.say("A number that is given up.")
    orders.void()

    orders.group("Refused: the routes go from 0 to 63. The number 3 is void.")
    orders.spoil(64, adult, ROUTE_TOO_LARGE)
    orders.say("Refused: the pad of number 4 (part 2) has 4093 at power 7. Number 4 is void.")
    orders.spoil(5, adult, bad_pad(7))
    orders.say("Refused: a text has at most 438 bytes, and this one 439. Number 5 is void.")
    orders.spoil(5, b"." * (LONGEST_TEXT + 1), WRONG_LENGTH)
    orders.say("The longest text.")
    orders.seal(5, b"." * LONGEST_TEXT)

    orders.group("Not understood; nothing is drawn.")
    orders.ask("seal", "five", "-", answer=NOT_A_NUMBER)
    orders.ask("seal", 5, "Zone", answer=NOT_BYTES)
    orders.ask("seal", 5, answer=WRONG_NUMBER)
    orders.ask("print", 5, answer=NO_ORDER)
    orders.ask("key", encoded(FORM, ONE), answer=KEY_GIVEN)

    orders.group("The last number of these pads; hexadecimal digits may be of either case.")
    orders.seal(63, b"\xab\xcd\xef", line=b"seal 63 aBcDeF")
    orders.say("Refused: all numbers are drawn.")
    orders.ask("seal", 5, "-", answer=ALL_DRAWN)
    orders.ask("void", answer=ALL_DRAWN)
    orders.say("With two pads more there are the numbers 8 and 9.")
    orders.pads(Bus(X, pads))
    orders.seal(0, b"Dog")
    orders.void()
    orders.ask("seal", 5, "-", answer=ALL_DRAWN)
    return orders.finish()


# --- The cases of the gate ---------------------------------------------------


def lines_not_understood(orders):
    """In every state of the program these have the same answers."""
    orders.group("Lines that are not understood")
    for word in (
        "Key", "KEY", "keys", "ke", "k", "Seal", "seals", "sea", "Void", "voids", "voi", "Pads", "pad", "padss",
        "draw", "tally", "end", "0", "-", "?", "poly-4093", "seal5", "void,",
    ):
        orders.ask(word, answer=NO_ORDER)
        orders.ask(word, "00", answer=NO_ORDER)
    for line in (b" ", b"  ", b" void", b" seal 5 -", b" # void", b" key 00"):
        orders.raw(line, NO_ORDER)
    for line in (
        b"key", b"pads", b"seal", b"seal 5", b"seal 5 - -", b"seal - 5 - -", b"void -", b"void 0", b"void void", b"void ", b"void  ",
        b"key 00 00", b"key - ", b"key  -", b"pads 00 00", b"pads  00", b"pads 00 ", b"seal 5 - ", b"seal  5 -", b"seal 5  -", b"seal  5  -",
    ):
        orders.raw(line, WRONG_NUMBER)
    orders.raw(b"key ", NOT_BYTES)
    orders.raw(b"pads ", NOT_BYTES)
    orders.raw(b"seal 5 ", NOT_BYTES)
    orders.raw(b"seal  -", NOT_A_NUMBER)
    orders.raw(b"seal  ", NOT_A_NUMBER)
    for word in ("-", "x", "five", "-1", "+1", "5,", "5,6", "5.0", "0x5", "5e0", "A", "5A", "/", ":", "0/", "0:", "--", "#", "5#"):
        orders.ask("seal", word, "-", answer=NOT_A_NUMBER)
    for word in (
        "0", "000", "0G", "G0", "g0", "0g", "/0", "0/", ":0", "0:", "@0", "0@", "`0", "0`", "--", "-0", "-00", "00-", "0x00", "00,00", "zz", "00h",
    ):
        orders.ask("seal", 5, word, answer=NOT_BYTES)
        orders.ask("key", word, answer=NOT_BYTES)
        orders.ask("pads", word, answer=NOT_BYTES)
    orders.group("Two things wrong: the earlier test decides")
    orders.ask("seal", "x", "x", answer=NOT_A_NUMBER)
    orders.ask("seal", 64, "x", answer=NOT_BYTES)
    orders.ask("seal", "x", "00" * (LONGEST_TEXT + 1), answer=NOT_A_NUMBER)
    orders.ask("seal", "x", answer=WRONG_NUMBER)
    orders.ask("print", "x", "x", "x", "x", answer=NO_ORDER)
    orders.raw(b"print \x07", NOT_TEXT)
    orders.raw(b"seal x \xff", NOT_TEXT)
    orders.group("Bytes that are not text, and carriage returns")
    for byte in (0x00, 0x01, 0x09, 0x0B, 0x0C, 0x1B, 0x1F, 0x7F, 0x80, 0xA0, 0xFF):
        orders.raw(b"void" + bytes([byte]), NOT_TEXT)
        orders.raw(bytes([byte]) + b"void", NOT_TEXT)
        orders.raw(bytes([byte]), NOT_TEXT)
    for line in (b"void\r\r", b"vo\rid", b"\rvoid", b"\r\r", b"\r#"):
        orders.raw(line, NOT_TEXT)
    orders.raw(b"seal 5\r", WRONG_NUMBER)
    orders.raw(b"print\r", NO_ORDER)
    orders.group("Lines that are passed over")
    for line in (b"", b"\r", b"#", b"#\r", b"##", b"#void", b"# seal 5 -", b"#\x00\xff\x07", b"#\r\r"):
        orders.raw(line)


def long_lines(orders):
    orders.group("Lines of the greatest length, and longer ones")
    orders.raw(b"#".ljust(LONGEST_LINE + 1, b"\xff"))
    orders.raw(b"x" * LONGEST_LINE, NO_ORDER)
    orders.raw(b"x" * LONGEST_LINE + b"\r", NO_ORDER)
    orders.raw(b"x" * LONGEST_LINE + b"\r\r", TOO_LONG)
    orders.raw(b"\xff" * LONGEST_LINE, NOT_TEXT)
    orders.raw(b"\xff" * (LONGEST_LINE + 1), TOO_LONG)
    orders.raw(b"void".ljust(LONGEST_LINE + 1), TOO_LONG)


def keys_refused(orders, draw):
    orders.group("Keys that are refused, each of them leaving no key")
    for size in (0, 1, 11, 13, 24, 440):
        orders.ask("key", bytes(size), answer=WRONG_KEY_SIZE)
    orders.ask("key", b"\xff" * 11, answer=WRONG_KEY_SIZE)
    orders.ask("key", b"\xff" * 13, answer=WRONG_KEY_SIZE)
    orders.ask("key", bytes(12), answer=ZERO_KEY)
    for power in range(8):
        orders.ask("key", encoded(FORM, with_number(draw.value(*FORM), power, Q)), answer=bad_key(power))
        orders.ask("key", encoded(FORM, single("poly", power, Q)), answer=bad_key(power))
    orders.ask("key", b"\xff" * 12, answer=bad_key(0))
    orders.ask("key", encoded(FORM, [4092] * 6 + [4094, 4095]), answer=bad_key(6))
    orders.ask("seal", 5, "-", answer=NO_KEY)
    orders.ask("void", answer=NO_KEY)


def without_a_key(orders):
    orders.group("Without a key, whatever else the order is")
    orders.ask("void", answer=NO_KEY)
    orders.ask("seal", 5, "-", answer=NO_KEY)
    orders.ask("seal", 64, b"\x00" * (LONGEST_TEXT + 1), answer=NO_KEY)


def key_and_no_pads(orders, bus, draw):
    orders.group("The key, and no pads yet; no second key is taken")
    orders.key(bus)
    orders.ask("void", answer=NO_PADS)
    orders.ask("seal", 5, "-", answer=NO_PADS)
    orders.ask("seal", 64, b"\x00" * (LONGEST_TEXT + 1), answer=NO_PADS)
    for content in (encoded(FORM, bus.key), encoded(FORM, draw.value(*FORM)), bytes(12), b"\xff" * 12, b"", bytes(13)):
        orders.ask("key", content, answer=KEY_GIVEN)
    orders.ask("key", "0", answer=NOT_BYTES)
    orders.ask("void", answer=NO_PADS)


def pads_refused(orders, bus):
    orders.group("Pads are counted when a number is drawn")
    row = bus.row()
    for count in (0, 1, 11, 13, 23, 25, 12 * 1024 + 1, 12 * 1025, 16381):
        orders.ask("pads", row[:1] * count)
        orders.ask("void", answer=BAD_PADS)
        orders.ask("seal", 5, "-", answer=BAD_PADS)
        orders.ask("seal", 64, b"\x00" * (LONGEST_TEXT + 1), answer=BAD_PADS)


def texts_and_routes(orders, draw):
    orders.group("Texts of many lengths")
    for length in (0, 1, 2, 8, 9, 10, 19, 20, 21, 31, 32, 253, 254, 255, 256, 427, 428, 429, 437, 438):
        orders.seal(draw.below(64), draw.bytes(length))
    orders.seal(7, b"\x00")
    orders.seal(7, b"\x00" * LONGEST_TEXT)
    orders.seal(7, b"\xff" * LONGEST_TEXT)
    for length in (LONGEST_TEXT + 1, LONGEST_TEXT + 2, 694, 4096, 16379):
        orders.spoil(7, draw.bytes(length), WRONG_LENGTH)
    orders.group("Routes")
    for route in (0, 1, 31, 32, 33, 62, 63):
        orders.seal(route, b"Dog")
    for route in (64, 65, 127, 128, 255, 256, 256 + 5, 65535, 65536, 65536 + 5, 2**32 + 5, 2**64 + 5, 10**30):
        orders.spoil(route, b"Dog", ROUTE_TOO_LARGE)
    orders.group("A route with leading zeros, hexadecimal digits of either case, a carriage return")
    orders.seal(5, b"Dog", line=b"seal 0005 446F67")
    orders.seal(0, b"", line=b"seal 00000 -")
    orders.seal(5, b"\xab\xcd\xef", line=b"seal 5 abcdef")
    orders.seal(5, b"\xab\xcd\xef", line=b"seal 5 ABCDEF")
    orders.seal(5, b"\xab\xcd\xef", line=b"seal 5 aBcDeF")
    orders.seal(63, b"", line=b"seal 63 -\r")
    orders.void(line=b"void\r")
    orders.group("The longest lines")
    orders.seal(5, b"Dog", line=b"seal " + b"5 446F67".rjust(LONGEST_LINE - 5, b"0"))
    orders.raw(b"seal " + b"5 446F67".rjust(LONGEST_LINE - 4, b"0"), TOO_LONG)
    orders.spoil("9" * (LONGEST_LINE - 12), b"Dog", ROUTE_TOO_LARGE)


def order_of_sealing(orders, broken):
    """The pads have a bad one at the next three numbers."""
    orders.group("Two faults of an order to seal: the earlier test decides")
    too_long = b"\x00" * (LONGEST_TEXT + 1)
    orders.spoil(64, too_long, ROUTE_TOO_LARGE)
    orders.spoil(64, b"", ROUTE_TOO_LARGE)
    orders.spoil(63, too_long, WRONG_LENGTH)
    orders.spoil(63, b"\x00" * LONGEST_TEXT, bad_pad(broken))
    orders.void()


def pads_with_a_fault_at_each_power(orders, draw):
    orders.group("Pads that cannot be decoded, each at another power; a bad pad can be voided")
    first = orders.next_number()
    pads = orders.bus.pads[:first]
    for power in range(8):
        pads += [with_number(draw.value(*FORM), power, Q), [4092] * power + [4095] * (8 - power), single("poly", power, Q)]
    orders.pads(Bus(orders.bus.key, pads + [draw.value(*FORM)]))
    for power in range(8):
        orders.spoil(5, b"Dog", bad_pad(power))
        orders.spoil(6, b"", bad_pad(power))
        if power % 2:
            orders.void()
        else:
            orders.spoil(7, b"\x00" * LONGEST_TEXT, bad_pad(power))
    orders.seal(5, b"Dog")
    orders.ask("void", answer=ALL_DRAWN)


def fewer_and_more_pads(orders, draw):
    orders.group("Fewer pads, the same, and one more; the numbers stay drawn")
    key, pads, drawn = orders.bus.key, orders.bus.pads, orders.next_number()
    for count in (1, 2, drawn - 1, drawn):
        orders.pads(Bus(key, pads[:count]))
        orders.ask("seal", 5, "-", answer=ALL_DRAWN)
        orders.ask("void", answer=ALL_DRAWN)
        orders.ask("seal", 64, b"\x00" * (LONGEST_TEXT + 1), answer=ALL_DRAWN)
    orders.pads(Bus(key, pads[:drawn] + [draw.value(*FORM)]))
    orders.seal(5, b"Dog")
    orders.ask("seal", 5, "-", answer=ALL_DRAWN)
    orders.group("Other pads in the place of the ones before; bad pads in between draw nothing")
    orders.pads(Bus(key, [draw.value(*FORM) for _ in range(drawn + 4)]))
    orders.seal(5, b"Dog")
    right = orders.bus
    orders.ask("pads", "-")
    orders.ask("seal", 5, "-", answer=BAD_PADS)
    orders.raw(b"pads 0", NOT_BYTES)
    orders.ask("seal", 5, "-", answer=BAD_PADS)
    orders.pads(right)
    orders.raw(b"pads 0", NOT_BYTES)
    orders.seal(5, b"Dog")
    orders.void()
    orders.ask("void", answer=ALL_DRAWN)


def to_the_last_number(orders, draw):
    orders.group("1024 pads, the most there are, down to the last number")
    pads = [draw.value(*FORM) for _ in range(1024)]
    orders.pads(Bus(orders.bus.key, pads))
    while orders.next_number() < 1020:
        number = orders.next_number()
        if number % 16 == 15 or number in (255, 256, 257, 511, 512, 513):
            orders.seal(draw.below(64), draw.bytes(draw.below(12)))
        else:
            orders.void()
    orders.seal(0)
    orders.spoil(64, b"", ROUTE_TOO_LARGE)
    orders.void()
    orders.seal(63, b"Zone A, adult")
    for _ in range(2):
        orders.ask("void", answer=ALL_DRAWN)
        orders.ask("seal", 5, "-", answer=ALL_DRAWN)
    orders.ask("seal", 64, b"\x00" * (LONGEST_TEXT + 1), answer=ALL_DRAWN)
    orders.ask("pads", bytes(12 * 1025))
    orders.ask("void", answer=BAD_PADS)
    orders.pads(orders.bus)
    orders.ask("void", answer=ALL_DRAWN)


def make_gate_case():
    orders, draw = Orders(), Draw(23)
    bus = drawn_bus(draw, 200)
    without_a_key(orders)
    lines_not_understood(orders)
    keys_refused(orders, draw)
    key_and_no_pads(orders, bus, draw)
    long_lines(orders)
    pads_refused(orders, bus)
    orders.group("A row of pads for the orders that follow")
    orders.pads(bus)
    texts_and_routes(orders, draw)
    lines_not_understood(orders)
    orders.group("The same pads, but bad from the next number on")
    drawn = orders.next_number()
    orders.pads(Bus(bus.key, bus.pads[:drawn] + [single("poly", 4, 4095)] * 5))
    order_of_sealing(orders, 4)
    pads_with_a_fault_at_each_power(orders, draw)
    fewer_and_more_pads(orders, draw)
    to_the_last_number(orders, draw)
    orders.group("The last line lacks its newline")
    orders.ask("seal", 5, "-", answer=ALL_DRAWN)
    return orders.finish(last_ending=b"")


# --- Small inputs: what one input alone cannot show --------------------------


def make_small():
    stored, draw = {}, Draw(24)

    def add(name, orders, last_ending=b"\n"):
        assert name not in stored, name
        stored[name] = orders.finish(last_ending)

    def started(bus):
        orders = Orders()
        orders.start(bus)
        return orders

    add("empty", Orders())
    for name, line in (("blank", b""), ("comment", b"# void"), ("carriage-return", b"\r")):
        for ending in (b"\n", b""):
            orders = Orders()
            orders.raw(line)
            add("only-a-%s%s" % (name, "" if ending else "-without-newline"), orders, ending)
    for name, line, answer in (
        ("void", b"void", NO_KEY), ("seal", b"seal 5 -", NO_KEY), ("other-word", b"print", NO_ORDER), ("zero-byte", b"\x00", NOT_TEXT),
        ("zero-key", b"key " + b"0" * 24, ZERO_KEY), ("key-of-no-bytes", b"key -", WRONG_KEY_SIZE),
        ("pads-of-no-bytes", b"pads -", None), ("key", b"key " + b"1" * 24, None),
    ):
        for ending in (b"\n", b""):
            orders = Orders()
            orders.raw(line, answer)
            add("only-%s%s" % (name, "" if ending else "-without-newline"), orders, ending)
    for length in (LONGEST_LINE, LONGEST_LINE + 1, 2 * LONGEST_LINE, 3 * LONGEST_LINE + 1):
        orders = Orders()
        orders.raw(b"x" * length, NO_ORDER if length == LONGEST_LINE else TOO_LONG)
        add("last-line-of-%d-bytes" % length, orders, b"")

        orders = started(plain_bus(1))
        orders.raw(b"#" * length)
        orders.raw(b"pads " + b"0" * length, TOO_LONG)
        orders.raw(b"key " + b"0" * length, TOO_LONG)
        orders.raw(b"void ".ljust(length), WRONG_NUMBER if length == LONGEST_LINE else TOO_LONG)
        orders.seal(5)
        add("nothing-changed-by-lines-of-%d-bytes" % length, orders)

    # The longest lines that are still keys, pads and texts.
    orders = Orders()
    orders.ask("key", bytes(16382), answer=WRONG_KEY_SIZE)
    orders.start(plain_bus(2))
    for count in (12 * 1024 - 1, 16380, 16381):
        orders.ask("pads", bytes(count))
        orders.ask("void", answer=BAD_PADS)
    orders.pads(plain_bus(2))
    orders.spoil(5, bytes(16380), WRONG_LENGTH)
    orders.seal(5, b"Dog", line=b"seal " + b"5 446F67".rjust(LONGEST_LINE - 5, b"0") + b"\r")
    add("longest-lines", orders)

    orders = Orders()
    orders.pads(plain_bus(1))
    orders.ask("void", answer=NO_KEY)
    orders.key(plain_bus(1))
    orders.void()
    add("pads-before-key", orders)

    orders = Orders()
    orders.pads(plain_bus(1))
    orders.ask("key", bytes(12), answer=ZERO_KEY)
    orders.ask("seal", 5, "-", answer=NO_KEY)
    orders.ask("key", b"\xff" * 12, answer=bad_key(0))
    orders.key(plain_bus(1))
    orders.seal(5)
    assert orders.answers[-1] == "0 sealed " + notation(ticket_by_hand(0, 5))
    orders.ask("key", bytes(12), answer=KEY_GIVEN)
    orders.ask("seal", 5, "-", answer=ALL_DRAWN)
    add("key-after-refused-keys", orders)

    for key, name in ((ONE, "one"), (single("poly", 7, 1), "1-at-power-7"), ([4092] * 8, "all-4092")):
        orders = started(Bus(key, [draw.value(*FORM), ZERO, [4092] * 8]))
        for text in (b"", b"Dog", draw.bytes(LONGEST_TEXT)):
            orders.seal(9, text)
        add("key-" + name, orders)

    for count in (1, 2, 3):
        for word in ("seal", "void"):
            orders = started(plain_bus(count))
            for _ in range(count):
                if word == "seal":
                    orders.seal(63)
                else:
                    orders.void()
            orders.ask("seal", 63, "-", answer=ALL_DRAWN)
            orders.ask("void", answer=ALL_DRAWN)
            add("%s-%d-of-%d" % (word, count, count), orders)

    orders = started(plain_bus(1024))
    for number in range(1024):
        orders.seal(number % 64)
        assert orders.answers[-1] == "%d sealed %s" % (number, notation(ticket_by_hand(number, number % 64)))
    orders.ask("seal", 5, "-", answer=ALL_DRAWN)
    add("seal-1024-of-1024", orders)

    orders = started(plain_bus(2))
    orders.seal(5)
    orders.pads(plain_bus(1))
    orders.ask("seal", 5, "-", answer=ALL_DRAWN)
    orders.pads(Bus(X, [ZERO, ONE, X]))
    orders.seal(5)
    orders.seal(5)
    add("pads-fewer-then-more", orders)

    orders = started(Bus(X, [ZERO, single("poly", 0, Q), ZERO]))
    orders.seal(5)
    orders.spoil(5, b"", bad_pad(0))
    orders.seal(5)
    add("bad-pad-in-the-middle", orders)

    orders = started(drawn_bus(draw, 5))
    orders.spoil(64, b"", ROUTE_TOO_LARGE)
    orders.spoil(5, bytes(LONGEST_TEXT + 1), WRONG_LENGTH)
    orders.void()
    orders.spoil(255, b"", ROUTE_TOO_LARGE)
    orders.spoil(256, b"", ROUTE_TOO_LARGE)
    orders.ask("seal", 64, "-", answer=ALL_DRAWN)
    add("nothing-sealed", orders)
    return stored


# --- The stored files --------------------------------------------------------


def make_stored():
    """The content of each stored file, by its path from the top directory."""
    example, example_answers = make_example()
    case, case_answers = make_gate_case()
    return {
        "examples/orders.txt": example,
        "examples/orders.expected": example_answers,
        "crates/issue/stdin": case,
        "crates/issue/stdout": case_answers,
    }


def main(arguments):
    second.check_constants()
    stored_files.run(arguments, __doc__, make_stored, make_small, ".txt")


if __name__ == "__main__":
    main(sys.argv[1:])
