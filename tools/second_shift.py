#!/usr/bin/env python3
"""A second, independent calculation of the lines of the program `shift`.

Reads the bytes of a shift from standard input (the key, the count of pads, the
pads, the tape) and writes its lines to standard output. Values, encodings and
tags are those of second_calculation. From record to record nothing is kept:

* the whole tape is cut into records first, by patterns of bytes; written down
  again from what they say, the records must give the same bytes;
* each ticket is judged alone, as if there were no other record;
* for each ticket number the first right check and the first cancel of the
  whole tape are looked up. The answer to a record follows from whether they
  stand before it, and which of them stands first;
* a report counts the numbers that were rightly checked before it and not
  cancelled before that, and whose first right check names its route.

To check this, the same records also go past a plain door, which keeps marks and
counts and makes its tests one after the other. It must give the same answers.
"""

import math
import re
import sys
from bisect import bisect_left
from collections import Counter, defaultdict, namedtuple

sys.dont_write_bytecode = True

import second_calculation as second  # noqa: E402
from second_calculation import Refused  # noqa: E402

FORM = second.FORMS["poly-4093"]
SIZE = second.encoded_size(FORM)
COUNT_SIZE = 2
SHORTEST_INPUT = SIZE + COUNT_SIZE
LONGEST_INPUT = 49152


# --- The input ---------------------------------------------------------------


def take_apart(content):
    """The key, the bytes of the pads and the tape."""
    if not SHORTEST_INPUT <= len(content) <= LONGEST_INPUT:
        raise Refused(second.WRONG_COUNT)
    encoded_key, rest = content[:SIZE], content[SHORTEST_INPUT:]
    pads_size = SIZE * int.from_bytes(content[SIZE:SHORTEST_INPUT], "big")
    # Pads that are cut short are fewer than their count, whatever is left.
    if len(rest) < pads_size:
        raise Refused(second.BAD_PADS)
    second.count_pads(FORM, rest[:pads_size])
    return second.decode_key(FORM, encoded_key), rest[:pads_size], rest[pads_size:]


# --- The tape ----------------------------------------------------------------

Check = namedtuple("Check", "ticket")
Cancel = namedtuple("Cancel", "number")
Report = namedtuple("Report", "route")

# What the two bytes at the start of a record may be, for each kind.
CHECK_START = re.compile(rb"[\x40-\x7F].", re.DOTALL)
CANCEL_START = re.compile(rb"[\x80-\x83].", re.DOTALL)
REPORT_START = re.compile(rb"\xC0[\x00-\x3F]")
START_SIZE = 2
START_OF = {Check: 0x4000, Cancel: 0x8000, Report: 0xC000}


def record_bytes(record):
    """The bytes of a record on a tape, made from what it says."""
    ticket = record.ticket if isinstance(record, Check) else b""
    number = len(ticket) if isinstance(record, Check) else record[0]
    return (START_OF[type(record)] + number).to_bytes(START_SIZE, "big") + ticket


def record_at(tape, place):
    start = tape[place : place + START_SIZE]
    if len(start) < START_SIZE:
        raise Refused(second.TAPE_TORN, second.PART_TAPE, place)
    number = int.from_bytes(start, "big")
    if CANCEL_START.fullmatch(start):
        return Cancel(number - START_OF[Cancel])
    if REPORT_START.fullmatch(start):
        return Report(number - START_OF[Report])
    if not CHECK_START.fullmatch(start):
        raise Refused(second.BAD_RECORD, second.PART_TAPE, place)
    end = place + START_SIZE + number - START_OF[Check]
    if end > len(tape):
        raise Refused(second.TAPE_TORN, second.PART_TAPE, place)
    return Check(tape[place + START_SIZE : end])


def cut(tape):
    """The records up to the end or the first fault, and the fault or None."""
    records, place, fault = [], 0, None
    while place < len(tape) and fault is None:
        try:
            records.append(record_at(tape, place))
            place += len(record_bytes(records[-1]))
        except Refused as refusal:
            fault = refusal
    assert b"".join(map(record_bytes, records)) == tape[:place]
    assert (fault is None) == (place == len(tape))
    return records, fault


# --- The answers, from what stands on the tape -------------------------------

NEVER = math.inf
# Refusals of a check that come before the number's mark is looked at.
BEFORE_THE_MARK = {second.WRONG_LENGTH, second.BAD_PADS, second.NUMBER_OUT_OF_RANGE}


def judge(key, pads, ticket):
    """Why a ticket is not right, whatever its mark; None where it is right."""
    try:
        second.open_ticket(FORM, key, pads, ticket)
    except Refused as refusal:
        return refusal
    return None


class History:
    """Where on the whole tape each number is first rightly checked and first
    cancelled. Places of records are counted from 0; a number to which it
    never happens has the place NEVER."""

    def __init__(self, key, pads, records):
        self.faults = {}
        self.checked = defaultdict(lambda: NEVER)
        self.cancelled = defaultdict(lambda: NEVER)
        for place, record in enumerate(records):
            if isinstance(record, Cancel):
                self.cancelled[record.number] = min(place, self.cancelled[record.number])
            elif isinstance(record, Check):
                self.faults[place] = judge(key, pads, record.ticket)
                if self.faults[place] is None:
                    number, _ = second.open_head(record.ticket)
                    self.checked[number] = min(place, self.checked[number])
        self.rides = self.places_of_rides(records)

    def places_of_rides(self, records):
        """For each route, in order, the first right checks that no cancel of
        the number precedes."""
        rides = defaultdict(list)
        for number, place in sorted(self.checked.items(), key=lambda item: item[1]):
            if place < self.cancelled[number]:
                _, route = second.open_head(records[place].ticket)
                rides[route].append(place)
        return rides

    def refuse_spent(self, number, place):
        """Refuses a number that was checked or cancelled before this place."""
        checked, cancelled = self.checked[number], self.cancelled[number]
        if cancelled < min(checked, place):
            raise Refused(second.TICKET_CANCELLED)
        if checked < min(cancelled, place):
            raise Refused(second.TICKET_RIDDEN)

    def answer_check(self, ticket, place):
        fault = self.faults[place]
        number, route = second.open_head(ticket)
        if fault is None or fault.number not in BEFORE_THE_MARK:
            self.refuse_spent(number, place)
        if fault is not None:
            raise fault
        assert place in self.rides[route]
        return "pass %d" % route

    def answer_cancel(self, number, place):
        self.refuse_spent(number, place)
        return "cancelled"

    def answer_report(self, route, place):
        return "rides %d" % bisect_left(self.rides[route], place)

    def answer(self, record, place):
        answers = {Check: self.answer_check, Cancel: self.answer_cancel, Report: self.answer_report}
        return answers[type(record)](record[0], place)


# --- The answers of a plain door, only to check those above ------------------


class Door:
    def __init__(self, key, pads):
        self.key, self.pads = key, pads
        self.marks = {}
        self.counts = Counter()

    def refuse_marked(self, number):
        if number in self.marks:
            raise Refused(self.marks[number])

    def check(self, ticket):
        if len(ticket) not in range(SIZE + 2, SIZE + 441):
            raise Refused(second.WRONG_LENGTH)
        number, route = ticket[0] * 4 + (ticket[1] >> 6), ticket[1] & 63
        # The pads as a row were tested when the input was taken apart.
        if len(self.pads) < SIZE * (number + 1):
            raise Refused(second.NUMBER_OUT_OF_RANGE)
        self.refuse_marked(number)
        pad = second.decode(FORM, self.pads[SIZE * number : SIZE * (number + 1)], second.PART_PAD)
        body, encoded_tag = ticket[:-SIZE], ticket[-SIZE:]
        second.decode(FORM, encoded_tag, second.PART_TAG)
        weighed = second.nested_sum(FORM, second.values_of_body(FORM, body), self.key)
        if encoded_tag != second.encode(FORM, second.add(FORM, weighed, pad)):
            raise Refused(second.FALSE_TAG)
        self.marks[number] = second.TICKET_RIDDEN
        self.counts[route] += 1
        return "pass %d" % route

    def cancel(self, number):
        self.refuse_marked(number)
        self.marks[number] = second.TICKET_CANCELLED
        return "cancelled"

    def report(self, route):
        return "rides %d" % self.counts[route]

    def answer(self, record):
        answers = {Check: self.check, Cancel: self.cancel, Report: self.report}
        return answers[type(record)](record[0])


# --- Lines -------------------------------------------------------------------


def text_of(answer, *arguments):
    """The text of an answer or of its refusal."""
    try:
        return answer(*arguments)
    except Refused as refusal:
        return second.write_refusal(refusal)


def answers_of_shift(key, pads, tape):
    """One answer for each record, and for the tape's fault if there is one."""
    records, fault = cut(tape)
    history, door = History(key, pads, records), Door(key, pads)
    answers = [text_of(history.answer, record, place) for place, record in enumerate(records)]
    assert answers == [text_of(door.answer, record) for record in records]
    return answers + ([second.write_refusal(fault)] if fault else [])


def lines_of(content):
    """All lines that the program writes for this input."""
    try:
        key, pads, tape = take_apart(content)
    except Refused as refusal:
        lines = ["0 " + second.write_refusal(refusal)]
    else:
        lines = ["%d %s" % numbered for numbered in enumerate(answers_of_shift(key, pads, tape), 1)]
    return lines + ["end %d" % len(lines)]


def output_of(content):
    return "".join(line + "\n" for line in lines_of(content)).encode("ascii")


def main():
    second.check_constants()
    sys.stdout.buffer.write(output_of(sys.stdin.buffer.read()))
    sys.stdout.buffer.flush()


if __name__ == "__main__":
    if sys.argv[1:]:
        sys.exit(__doc__)
    main()
