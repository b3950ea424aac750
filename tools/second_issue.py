#!/usr/bin/env python3
"""A second, independent calculation of the answers of the program `issue`.

Reads a key, pads and orders from standard input, one a line, and writes one
answer a line and the tally to standard output. Values, encodings, tags and the
reading of numbers and bytes are those of second_calculation. No issuer is kept:

* every line is understood by itself, before any is answered;
* the issuer's key is the first of the whole input that is not refused; the
  pads of an order are those of the last `pads` line above it;
* as each number is drawn once and in order, an order's number is the count of
  orders above it that drew one, and that is all an order knows of the others;
* each ticket is opened again, and must give back what was ordered.

To check this, the same lines also go past a plain desk, which keeps the state of
every number and looks for the lowest that is not drawn. It must give the same
answers and the same tally.
"""

import sys
from collections import Counter, namedtuple

sys.dont_write_bytecode = True

import second_calculation as second  # noqa: E402
from second_calculation import NotUnderstood, Refused  # noqa: E402

FORM = second.FORMS["poly-4093"]
LONGEST_LINE = 32768

# A route may fill a whole line with digits, more than Python reads of itself.
if hasattr(sys, "set_int_max_str_digits"):
    sys.set_int_max_str_digits(LONGEST_LINE)

# --- Lines -------------------------------------------------------------------

Key = namedtuple("Key", "encoding")
Pads = namedtuple("Pads", "row")
Seal = namedtuple("Seal", "route text")
Void = namedtuple("Void", "")

# For each first word what its line says, and how its arguments are understood.
SAYINGS = {
    "key": (Key, (second.understand_bytes,)),
    "pads": (Pads, (second.understand_bytes,)),
    "seal": (Seal, (second.understand_number, second.understand_bytes)),
    "void": (Void, ()),
}


def understand(line):
    """What a line of bytes says; what is wrong where it is not understood."""
    try:
        first, *words = second.understand_text(line, LONGEST_LINE).split(" ")
        if first not in SAYINGS:
            raise NotUnderstood("no such order")
        kind, arguments = SAYINGS[first]
        if len(words) != len(arguments):
            raise NotUnderstood("wrong number of arguments")
        return kind(*(each(word) for each, word in zip(arguments, words)))
    except NotUnderstood as reason:
        return reason


def understand_all(lines):
    without_endings = map(second.without_ending, lines)
    return [understand(line) for line in without_endings if not second.is_passed_over(line)]


# --- The answers, from what stands in the whole input ------------------------

# What one line gives: the text of its answer or None, and whether it has drawn
# a number, sealed it, voided it.
Result = namedtuple("Result", "answer drawn sealed voided", defaults=(0, 0, 0))


def write_fault(fault):
    return second.write_refusal(fault) if isinstance(fault, Refused) else "? %s" % fault


def is_key(encoding):
    try:
        second.decode_key(FORM, encoding)
    except Refused:
        return False
    return True


def place_of_key(said):
    """The place of the line that makes the issuer; behind all if none does."""
    return next((place for place, each in enumerate(said) if isinstance(each, Key) and is_key(each.encoding)), len(said))


def last_row(said):
    """The pads of the last line of pads among these, or None."""
    return next((each.row for each in reversed(said) if isinstance(each, Pads)), None)


def make_ticket(key, row, number, order):
    """The ticket of a number that was drawn, after the tests of sealing."""
    if order.route > second.LARGEST_ROUTE:
        raise Refused(second.ROUTE_OUT_OF_RANGE)
    if len(order.text) > second.LONGEST_TEXT:
        raise Refused(second.WRONG_LENGTH)
    body = second.make_body(number, order.route, order.text)
    pad = second.pad_of(FORM, row, number)
    ticket = body + second.encode(FORM, second.tag(FORM, key, pad, body))
    assert second.open_ticket(FORM, key, row, ticket) == (number, order.route, order.text)
    return ticket


def result_of_order(key, row, drawn, order):
    """What an order gives when so many numbers are drawn before it."""
    try:
        if drawn >= second.count_pads(FORM, row):
            raise Refused(second.ALL_DRAWN)
    except Refused as refusal:
        return Result(write_fault(refusal))
    if isinstance(order, Void):
        return Result("%d voided" % drawn, drawn=1, voided=1)
    try:
        ticket = make_ticket(key, row, drawn, order)
    except Refused as refusal:
        return Result(write_fault(refusal), drawn=1, voided=1)
    return Result("%d sealed %s" % (drawn, second.write_bytes(ticket)), drawn=1, sealed=1)


def result_of_key(encoding, there_is_one):
    if there_is_one:
        return Result("? key already given")
    try:
        second.decode_key(FORM, encoding)
    except Refused as refusal:
        return Result(write_fault(refusal))
    return Result(None)


def results_of(said):
    results, making, drawn = [], place_of_key(said), 0
    for place, each in enumerate(said):
        row = last_row(said[:place])
        if isinstance(each, NotUnderstood):
            result = Result(write_fault(each))
        elif isinstance(each, Key):
            result = result_of_key(each.encoding, making < place)
        elif isinstance(each, Pads):
            result = Result(None)
        elif making > place:
            result = Result("? no key")
        elif row is None:
            result = Result("? no pads")
        else:
            key = second.decode_key(FORM, said[making].encoding)
            result = result_of_order(key, row, drawn, each)
        drawn += result.drawn
        results.append(result)
    return results


# --- The answers of a plain desk, only to check those above ------------------


class Desk:
    def __init__(self):
        self.key = self.row = None
        self.states = {}

    def draw(self):
        there = set(range(second.count_pads(FORM, self.row)))
        if not there - set(self.states):
            raise Refused(second.ALL_DRAWN)
        number = min(there - set(self.states))
        self.states[number] = "open"
        return number

    def seal(self, number, route, text):
        # It stays void unless all goes well.
        self.states[number] = "void"
        if route not in range(64):
            raise Refused(second.ROUTE_OUT_OF_RANGE)
        if len(text) not in range(439):
            raise Refused(second.WRONG_LENGTH)
        size = second.encoded_size(FORM)
        pad = second.decode(FORM, self.row[number * size : (number + 1) * size], second.PART_PAD)
        body = bytes([number >> 2, (number & 3) << 6 | route]) + text
        weighed = second.nested_sum(FORM, second.values_of_body(FORM, body), self.key)
        self.states[number] = "sealed"
        return body + second.encode(FORM, second.add(FORM, weighed, pad))

    def take_key(self, encoding):
        if self.key is not None:
            raise NotUnderstood("key already given")
        self.key = second.decode_key(FORM, encoding)

    def order(self, said):
        if self.key is None:
            raise NotUnderstood("no key")
        if self.row is None:
            raise NotUnderstood("no pads")
        number = self.draw()
        if isinstance(said, Void):
            self.states[number] = "void"
            return "%d voided" % number
        return "%d sealed %s" % (number, self.seal(number, *said).hex().upper())

    def answer(self, said):
        try:
            if isinstance(said, NotUnderstood):
                raise said
            if isinstance(said, (Seal, Void)):
                return self.order(said)
            if isinstance(said, Key):
                self.take_key(said.encoding)
            if isinstance(said, Pads):
                self.row = said.row
            return None
        except (NotUnderstood, Refused) as fault:
            return write_fault(fault)

    def tally(self):
        counts = Counter(self.states.values())
        return len(self.states), counts["sealed"], counts["void"]


# --- The whole output --------------------------------------------------------


def answer_lines(lines):
    """The answers to lines of bytes, and the tally."""
    said = understand_all(lines)
    results, desk = results_of(said), Desk()
    assert [result.answer for result in results] == [desk.answer(each) for each in said]
    tally = tuple(sum(getattr(result, name) for result in results) for name in ("drawn", "sealed", "voided"))
    assert tally == desk.tally()
    answers = [result.answer for result in results if result.answer is not None]
    return answers + ["tally %d %d %d" % tally]


def main():
    second.check_constants()
    for answer in answer_lines(sys.stdin.buffer):
        sys.stdout.buffer.write(answer.encode("ascii") + b"\n")
    sys.stdout.buffer.flush()


if __name__ == "__main__":
    if sys.argv[1:]:
        sys.exit(__doc__)
    main()
