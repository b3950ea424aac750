#!/usr/bin/env python3
"""Writes the calculator's test cases and their answers.

    make_cases.py           write crates/calc/stdin and crates/calc/stdout
    make_cases.py --check   write nothing; fail if the stored files differ

The answers come from second_calculation. Where the answer is known without it
(by hand, or from the rules of the language) the case states it, and a
disagreement stops this script. The cases are the same in every run.
"""

import io
import itertools
import os
import sys

sys.dont_write_bytecode = True

import second_calculation as second  # noqa: E402

DIRECTORY = os.path.join(os.path.dirname(os.path.abspath(__file__)), "..", "crates", "calc")

MODULI = (4093, 1021)
COUNTS = {"prime": 1, "short": 2, "long": 8, "poly": 8}
FORMS = [(family, q) for q in MODULI for family in COUNTS]
LONG_POWERS = (0, 4, 2, 6, 1, 5, 3, 7)
# The forms with encodings; the bytes of an encoding and of a full block.
SIZES = {
    ("short", 4093): (3, 2), ("long", 4093): (12, 11), ("poly", 4093): (12, 11),
    ("short", 1021): (3, 2), ("long", 1021): (10, 9), ("poly", 1021): (10, 9),
}
WIDTHS = {4093: 12, 1021: 10}
THIRTY_DIGITS = 123456789012345678901234567890

NO_FORM = "? no such form"
NO_OPERATION = "? no such operation"
WRONG_NUMBER = "? wrong number of arguments"
NOT_A_VALUE = "? not a value"
NOT_A_NUMBER = "? not a number"
NOT_BYTES = "? not bytes"
NOT_TEXT = "? not text"
TOO_LONG = "? line too long"
ZERO_INVERSE = "refused 2 0 0"
WRONG_COUNT = "refused 3 0 0"
WRONG_PADDING = "refused 4 0 0"
WRONG_LENGTH = "refused 5 0 0"
BAD_PADS = "refused 6 0 0"
NUMBER_TOO_LARGE = "refused 8 0 0"
FALSE_TAG = "refused 11 0 0"
ROUTE_TOO_LARGE = "refused 17 0 0"
KEY, PAD, TAG = 1, 2, 3


def out_of_range(power, part=0):
    return "refused 1 %d %d" % (part, power)


def power_of(family, place):
    return LONG_POWERS[place] if family == "long" else place


class Draw:
    """A linear congruential generator modulo 2^64; its high digits are used."""

    def __init__(self, seed):
        self.state = seed

    def below(self, bound):
        self.state = (self.state * 6364136223846793005 + 1442695040888963407) % 2**64
        return (self.state >> 33) % bound

    def value(self, family, q):
        """Every coefficient nonzero, so that no place goes unnoticed."""
        return [1 + self.below(q - 1) for _ in range(COUNTS[family])]

    def bytes(self, count):
        return bytes(self.below(256) for _ in range(count))


class Cases:
    def __init__(self):
        self.lines = []
        self.answers = []

    def group(self, title):
        self.lines.append(b"\n" if self.lines else b"")
        self.lines.append(b"# " + title.encode("ascii") + b"\n")

    def passed_over(self, line):
        assert second.answer_line(line) is None, line
        self.lines.append(line + b"\n")

    def raw(self, line, expected=None, ending=b"\n"):
        """A line of bytes; returns its answer."""
        answer = second.answer_line(line + ending)
        assert answer is not None, line
        assert expected is None or answer == expected, (line, answer, expected)
        self.lines.append(line + ending)
        self.answers.append(answer)
        return answer

    def text(self, line, expected=None):
        return self.raw(line.encode("ascii"), expected)

    def ask(self, form, operation, *arguments, expected=None):
        """A command on values given as in notation; expected likewise."""
        words = ["%s-%d" % form, operation] + [notation(each) for each in arguments]
        return self.text(" ".join(words), None if expected is None else notation(expected))


def notation(value):
    """Text as it is, one number, bytes, or a list of numbers."""
    if isinstance(value, str):
        return value
    if isinstance(value, int):
        return str(value)
    if isinstance(value, bytes):
        return "".join("%02X" % byte for byte in value) or "-"
    return ",".join(str(number) for number in value)


def single(family, place, number):
    """The list with this number at this place and zero elsewhere."""
    value = [0] * COUNTS[family]
    value[place] = number
    return value


def with_number(value, place, number):
    return value[:place] + [number] + value[place + 1 :]


def padded(start, end, length):
    """A line of this many bytes: start, as many zeros as it takes, end."""
    return start + b"0" * (length - len(start) - len(end)) + end


# --- Values ------------------------------------------------------------------


def known_answers(cases):
    cases.group("Answers known from calculation by hand")
    short, small = ("short", 4093), ("short", 1021)
    cases.ask(short, "mul", [3, 5], [7, 11], expected=[131, 68])
    cases.ask(short, "inverse", [3, 5], expected=[2296, 2995])
    cases.ask(small, "inverse", [3, 5], expected=[747, 797])
    cases.ask(short, "mul", [3, 5], [2296, 2995], expected=[1, 0])
    cases.ask(small, "mul", [3, 5], [747, 797], expected=[1, 0])
    for q in MODULI:
        seventh, third = single("poly", 7, 1), single("poly", 3, 1)
        cases.ask(("poly", q), "mul", seventh, third, expected=single("poly", 2, 2))
        cases.ask(("long", q), "convert", single("long", 3, 1), expected=single("poly", 6, 1))
        cases.ask(("long", q), "convert", single("long", 5, 1), expected=single("poly", 5, 1))


def constants(cases):
    cases.group("The non-residue and the square root of minus one of each form")
    nonresidues = {"prime": [2], "short": [0, 1], "long": single("long", 4, 1), "poly": single("poly", 1, 1)}
    roots = {4093: 1059, 1021: 374}
    for form in FORMS:
        family, q = form
        root = single(family, 0, roots[q])
        minus_one = single(family, 0, q - 1)
        cases.ask(form, "nonresidue", expected=nonresidues[family])
        cases.ask(form, "sqrt-minus-one", expected=root)
        cases.ask(form, "square", root, expected=minus_one)
        cases.ask(form, "mul", root, root, expected=minus_one)


def random_values(cases, draw):
    for form in FORMS:
        family, q = form
        zero, one = single(family, 0, 0), single(family, 0, 1)
        cases.group("Random values in %s-%d" % form)
        for _ in range(3):
            a, b = draw.value(family, q), draw.value(family, q)
            total = cases.ask(form, "add", a, b)
            cases.ask(form, "add", b, a, expected=total)
            product = cases.ask(form, "mul", a, b)
            cases.ask(form, "mul", b, a, expected=product)
        a, b, c = (draw.value(family, q) for _ in range(3))
        negative = cases.ask(form, "neg", a, expected=[q - number for number in a])
        cases.ask(form, "add", a, negative, expected=zero)
        cases.ask(form, "neg", negative, expected=a)
        cases.ask(form, "add", a, zero, expected=a)
        cases.ask(form, "mul", a, one, expected=a)
        cases.ask(form, "mul", zero, a, expected=zero)

        cases.group("Products over sums in %s-%d" % form)
        total = cases.ask(form, "add", a, b)
        left = cases.ask(form, "mul", a, c)
        right = cases.ask(form, "mul", b, c)
        both = cases.ask(form, "add", left, right)
        cases.ask(form, "mul", total, c, expected=both)

        cases.group("Squares against products in %s-%d" % form)
        for a in (draw.value(family, q), draw.value(family, q), [q - 1] * COUNTS[family]):
            square = cases.ask(form, "square", a)
            cases.ask(form, "mul", a, a, expected=square)

        cases.group("Products with the non-residue in %s-%d" % form)
        outer = cases.ask(form, "nonresidue")
        for a in (draw.value(family, q), [q - 1] * COUNTS[family], zero):
            product = cases.ask(form, "by-nonresidue", a)
            cases.ask(form, "mul", a, outer, expected=product)

        cases.group("Values times their inverse in %s-%d" % form)
        for a in (draw.value(family, q), draw.value(family, q), [q - 1] * COUNTS[family], [1] * COUNTS[family]):
            inverse = cases.ask(form, "inverse", a)
            cases.ask(form, "mul", a, inverse, expected=one)
            cases.ask(form, "inverse", inverse, expected=a)


def zero_and_one(cases):
    cases.group("Zero, one and minus one in each form")
    for form in FORMS:
        family, q = form
        zero, one, minus = (single(family, 0, number) for number in (0, 1, q - 1))
        cases.ask(form, "add", zero, zero, expected=zero)
        cases.ask(form, "add", minus, one, expected=zero)
        cases.ask(form, "add", minus, minus, expected=single(family, 0, q - 2))
        cases.ask(form, "neg", zero, expected=zero)
        cases.ask(form, "neg", one, expected=minus)
        cases.ask(form, "mul", minus, minus, expected=one)
        cases.ask(form, "square", zero, expected=zero)
        cases.ask(form, "square", minus, expected=one)
        cases.ask(form, "by-nonresidue", zero, expected=zero)
        cases.ask(form, "inverse", one, expected=one)
        cases.ask(form, "inverse", minus, expected=minus)
    cases.group("All coefficients at their largest")
    for form in FORMS:
        family, q = form
        largest = [q - 1] * COUNTS[family]
        cases.ask(form, "add", largest, largest, expected=[q - 2] * COUNTS[family])
        cases.ask(form, "neg", largest, expected=[1] * COUNTS[family])
        cases.ask(form, "mul", largest, single(family, 0, q - 1), expected=[1] * COUNTS[family])


def basis_products(cases):
    for form in FORMS:
        family, q = form
        cases.group("Products of single coefficients, every place with every place, in %s-%d" % form)
        for i, j in itertools.product(range(COUNTS[family]), repeat=2):
            expected = None
            if family != "prime":
                # X^m times X^n is X^(m+n), or 2 X^(m+n-c) from X^c on.
                folded, power = divmod(power_of(family, i) + power_of(family, j), COUNTS[family])
                place = [power_of(family, p) for p in range(COUNTS[family])].index(power)
                expected = single(family, place, 2 if folded else 1)
            cases.ask(form, "mul", single(family, i, 1), single(family, j, 1), expected=expected)


def nonresidue_at_each_place(cases):
    cases.group("The non-residue times a single coefficient at each place")
    for form in FORMS:
        family, q = form
        for place in range(COUNTS[family]):
            for number in (1, q - 1):
                cases.ask(form, "by-nonresidue", single(family, place, number))


def inverses(cases, draw):
    cases.group("Zero has no inverse")
    for form in FORMS:
        family, q = form
        cases.ask(form, "inverse", single(family, 0, 0), expected=ZERO_INVERSE)
        cases.ask(form, "inverse", ",".join(["000"] * COUNTS[family]), expected=ZERO_INVERSE)
    cases.group("Inverses of values with a single nonzero coefficient, at each place")
    for form in FORMS:
        family, q = form
        one = single(family, 0, 1)
        for place in range(COUNTS[family]):
            for number in (1, q - 1, 2 + draw.below(q - 3)):
                value = single(family, place, number)
                inverse = cases.ask(form, "inverse", value)
            cases.ask(form, "mul", inverse, value, expected=one)
    cases.group("Inverses of values with zeros in one half, one quarter or every other place")
    for form in FORMS:
        family, q = form
        if COUNTS[family] != 8:
            continue
        one = single(family, 0, 1)
        for kept in ("11110000", "00001111", "11000000", "00110000", "00001100", "00000011", "10101010", "01010101", "10001000", "01111111", "11111110"):
            value = [number * int(digit) for number, digit in zip(draw.value(family, q), kept)]
            inverse = cases.ask(form, "inverse", value)
            cases.ask(form, "mul", value, inverse, expected=one)


def edges(cases, draw):
    for form in FORMS:
        family, q = form
        cases.group("The edges of the range at each place in %s-%d (refused with the power of X)" % form)
        for place in range(COUNTS[family]):
            value = draw.value(family, q)
            for number in (0, 1, q - 1):
                edge = with_number(value, place, number)
                cases.ask(form, "neg", edge, expected=[-each % q for each in edge])
            for number in (q, 65535, 65536, THIRTY_DIGITS):
                cases.ask(form, "neg", with_number(value, place, number), expected=out_of_range(power_of(family, place)))


def wider_numbers(cases):
    cases.group("Numbers that would be other numbers if cut to 8, 16, 32, 64 or 128 binary digits")
    for form in FORMS:
        family, q = form
        last = COUNTS[family] - 1
        cases.ask(form, "neg", single(family, last, 256 + 5), expected=single(family, last, q - 261))
        for digits in (16, 32, 64, 128):
            number = 2**digits + 5
            cases.ask(form, "neg", single(family, last, number), expected=out_of_range(last))
    cases.group("Numbers between one modulus and the other")
    for family in COUNTS:
        for number in (1021, 2000, 4092):
            value = single(family, 0, number)
            cases.ask((family, 4093), "add", value, single(family, 0, 0), expected=value)
            cases.ask((family, 1021), "add", value, single(family, 0, 0), expected=out_of_range(0))
    cases.group("Numbers that are zero or one modulo q are out of range all the same")
    for form in FORMS:
        family, q = form
        for number in (q, q + 1, 2 * q, 16 * q, 17 * q + 1, q * 10**27):
            cases.ask(form, "square", single(family, 0, number), expected=out_of_range(0))
        cases.ask(form, "inverse", single(family, 0, q), expected=out_of_range(0))
    cases.group("Leading zeros")
    for form in FORMS:
        family, q = form
        value = list(range(1, COUNTS[family] + 1))
        zeros = ",".join("0" * (3 * number) + str(number) for number in value)
        cases.ask(form, "mul", zeros, single(family, 0, 1), expected=value)
        cases.ask(form, "neg", ",".join(["0" * 60] * COUNTS[family]), expected=single(family, 0, 0))
        cases.ask(form, "neg", ",".join(["0" * 30 + str(q)] * COUNTS[family]), expected=out_of_range(0))


def several_out_of_range(cases):
    for form in (("long", 4093), ("long", 1021), ("poly", 4093)):
        family, q = form
        cases.group("Two coefficients out of range, every pair, in %s-%d: the smaller power of X is told" % form)
        for i, j in itertools.combinations(range(8), 2):
            value = with_number(single(family, i, q), j, 65536)
            power = min(power_of(family, i), power_of(family, j))
            cases.ask(form, "neg", value, expected=out_of_range(power))
    cases.group("Many coefficients out of range: the smallest power of X is told")
    for q in MODULI:
        cases.ask(("short", q), "neg", [q, q], expected=out_of_range(0))
        for family in ("long", "poly"):
            for legal in range(9):
                # The first places are in range, the rest are not.
                value = [7] * legal + [q] * (8 - legal)
                powers = [power_of(family, place) for place in range(legal, 8)]
                expected = out_of_range(min(powers)) if powers else [q - 7] * 8
                cases.ask((family, q), "neg", value, expected=expected)


def conversions(cases, draw):
    other = {"long": "poly", "poly": "long"}
    cases.group("Conversion of each place: long places 0 to 7 are the powers 0 4 2 6 1 5 3 7")
    for q in MODULI:
        for place, power in enumerate(LONG_POWERS):
            cases.ask(("long", q), "convert", single("long", place, 1 + place), expected=single("poly", power, 1 + place))
            cases.ask(("poly", q), "convert", single("poly", power, 1 + place), expected=single("long", place, 1 + place))
    cases.group("Conversion there and back")
    for q in MODULI:
        for family in other:
            for value in (draw.value(family, q), draw.value(family, q), [0] * 8, [q - 1] * 8, [10, 11, 12, 13, 14, 15, 16, 17]):
                there = cases.ask((family, q), "convert", value)
                cases.ask((other[family], q), "convert", there, expected=value)
    cases.group("Conversion of a product is the product of conversions")
    for q in MODULI:
        a, b = draw.value("long", q), draw.value("long", q)
        product = cases.ask(("long", q), "mul", a, b)
        converted = cases.ask(("long", q), "convert", product)
        first = cases.ask(("long", q), "convert", a)
        second_one = cases.ask(("long", q), "convert", b)
        cases.ask(("poly", q), "mul", first, second_one, expected=converted)
        inverse = cases.ask(("long", q), "inverse", a)
        converted = cases.ask(("long", q), "convert", inverse)
        cases.ask(("poly", q), "inverse", first, expected=converted)
        turned = cases.ask(("long", q), "by-nonresidue", a)
        converted = cases.ask(("long", q), "convert", turned)
        cases.ask(("poly", q), "by-nonresidue", first, expected=converted)
    cases.group("Conversion refused")
    for q in MODULI:
        for family in other:
            cases.ask((family, q), "convert", single(family, 1, q), expected=out_of_range(power_of(family, 1)))
            cases.ask((family, q), "convert", single(family, 4, q), expected=out_of_range(power_of(family, 4)))
            cases.ask((family, q), "convert", [0] * 7, expected=WRONG_COUNT)
            cases.ask((family, q), "convert", [0] * 9, expected=WRONG_COUNT)


def sameness(cases, draw):
    cases.group("Same or not: a difference at each place")
    for form in FORMS:
        family, q = form
        value = draw.value(family, q)
        cases.ask(form, "same", value, value, expected="yes")
        for place in range(COUNTS[family]):
            changed = with_number(value, place, (value[place] + 1) % q)
            cases.ask(form, "same", value, changed, expected="no")
    cases.group("Same or not: zero, leading zeros, places exchanged, out of range")
    for form in FORMS:
        family, q = form
        zero = single(family, 0, 0)
        cases.ask(form, "same", zero, zero, expected="yes")
        cases.ask(form, "same", zero, single(family, 0, q - 1), expected="no")
        cases.ask(form, "same", zero, ",".join(["0000"] * COUNTS[family]), expected="yes")
        cases.ask(form, "same", zero, single(family, 0, q), expected=out_of_range(0))
        if family != "prime":
            value = list(range(1, COUNTS[family] + 1))
            cases.ask(form, "same", value, value[::-1], expected="no")


def counts(cases):
    cases.group("Another count of numbers than the form has")
    for form in FORMS:
        family, q = form
        count = COUNTS[family]
        for wrong in sorted({1, 2, count - 1, count + 1, 8, 16, 300} - {0, count}):
            cases.ask(form, "neg", [1] * wrong, expected=WRONG_COUNT)
    for form in FORMS:
        family, q = form
        right, wrong = [1] * COUNTS[family], [1] * (COUNTS[family] + 1)
        for operation in ("add", "mul", "same"):
            cases.ask(form, operation, wrong, right, expected=WRONG_COUNT)
            cases.ask(form, operation, right, wrong, expected=WRONG_COUNT)
        for operation in ("square", "inverse", "by-nonresidue"):
            cases.ask(form, operation, wrong, expected=WRONG_COUNT)


def every_operation_refuses(cases):
    cases.group("Every operation refuses a number out of range, in either argument")
    for form in FORMS:
        family, q = form
        last = COUNTS[family] - 1
        right, wrong = single(family, 0, 1), single(family, last, q)
        for operation in ("add", "mul", "same"):
            cases.ask(form, operation, wrong, right, expected=out_of_range(last))
            cases.ask(form, operation, right, wrong, expected=out_of_range(last))
        for operation in ("neg", "square", "inverse", "by-nonresidue"):
            cases.ask(form, operation, wrong, expected=out_of_range(last))


# --- Faults ------------------------------------------------------------------


def two_faults(cases):
    cases.group("Two faults in one value: the count is tested before the range")
    cases.text("prime-4093 neg 4093,4093", WRONG_COUNT)
    cases.text("short-4093 neg 65536", WRONG_COUNT)
    cases.text("short-1021 neg 0,1021,0", WRONG_COUNT)
    cases.text("long-4093 neg 9999,9999", WRONG_COUNT)
    cases.text("poly-1021 neg 0,0,0,0,0,0,0,0,%d" % THIRTY_DIGITS, WRONG_COUNT)
    cases.group("Two faults in two values: the first value is told")
    cases.text("short-4093 add 4093,0 1", out_of_range(0))
    cases.text("short-4093 add 0,4093 1", out_of_range(1))
    cases.text("short-4093 add 1 4093,0", WRONG_COUNT)
    cases.text("short-4093 mul 0,4093 4093,0", out_of_range(1))
    cases.text("short-4093 mul 4093,0 0,4093", out_of_range(0))
    cases.text("long-1021 same 0,0,0,1021,0,0,0,0 0,0,0,0,1021,0,0,0", out_of_range(6))
    cases.text("long-1021 same 0,0,0,0,1021,0,0,0 0,0,0,1021,0,0,0,0", out_of_range(1))
    cases.text("poly-1021 same 0,0,0,1021,0,0,0,0 0,0,0,0,1021,0,0,0", out_of_range(3))
    cases.text("poly-1021 same 0,0,0,0,1021,0,0,0 0,0,0,1021,0,0,0,0", out_of_range(4))
    cases.text("long-4093 add 1 2", WRONG_COUNT)
    cases.group("A zero that is also of a wrong count or out of range is not told as a zero")
    cases.text("prime-4093 inverse 0,0", WRONG_COUNT)
    cases.text("short-1021 inverse 0", WRONG_COUNT)
    cases.text("long-4093 inverse 0", WRONG_COUNT)
    cases.text("prime-1021 inverse 1021", out_of_range(0))
    cases.text("short-4093 inverse 0,4093", out_of_range(1))
    cases.text("long-4093 inverse 0,4093,0,0,0,0,0,0", out_of_range(4))
    cases.group("All values are understood before any is built")
    cases.text("short-4093 add 4093,0 x", NOT_A_VALUE)
    cases.text("short-4093 add 1 x", NOT_A_VALUE)
    cases.text("short-4093 mul x 4093,0", NOT_A_VALUE)
    cases.text("prime-1021 same 5000 -1", NOT_A_VALUE)
    cases.text("long-4093 add 1,2,3 1,2,", NOT_A_VALUE)
    cases.text("prime-4093 neg 4093,", NOT_A_VALUE)
    cases.text("poly-4093 mul 65536,0,0,0,0,0,0,0 0,0,0,0,0,0,0,0x", NOT_A_VALUE)
    cases.group("The number of arguments is tested before the values")
    cases.text("prime-4093 neg x y", WRONG_NUMBER)
    cases.text("prime-4093 add x", WRONG_NUMBER)
    cases.text("short-4093 add 4093,0", WRONG_NUMBER)
    cases.text("long-1021 nonresidue x", WRONG_NUMBER)
    cases.text("long-1021 inverse 0 0", WRONG_NUMBER)
    cases.group("The form is tested before the operation, the operation before the number of arguments")
    cases.text("prime-61 nothing", NO_FORM)
    cases.text("prime-61 neg x y z", NO_FORM)
    cases.text("prime-4093 nothing x y z", NO_OPERATION)
    cases.text("prime-4093 convert", NO_OPERATION)
    cases.text("short-4093 convert 1 2 3", NO_OPERATION)
    cases.text("short-1021 convert x", NO_OPERATION)
    cases.text("prime-1021 convert 5000", NO_OPERATION)
    cases.group("Text is tested before the form")
    cases.raw(b"nothing\x01", NOT_TEXT)
    cases.raw(b"prime-4093 nothing \x7f", NOT_TEXT)
    cases.raw(b"prime-4093 neg 4093\xff", NOT_TEXT)


def spaces(cases):
    cases.group("Spaces: two in a row, leading and trailing ones make empty words")
    cases.text(" ", NO_FORM)
    cases.text("  ", NO_FORM)
    cases.text(" prime-4093 neg 1", NO_FORM)
    cases.text(" # not a comment", NO_FORM)
    cases.text("prime-4093 ", NO_OPERATION)
    cases.text("prime-4093  neg 1", NO_OPERATION)
    cases.text("prime-4093 neg ", NOT_A_VALUE)
    cases.text("prime-4093 neg  1", WRONG_NUMBER)
    cases.text("prime-4093 neg 1 ", WRONG_NUMBER)
    cases.text("prime-4093 neg  ", WRONG_NUMBER)
    cases.text("prime-4093 add  ", NOT_A_VALUE)
    cases.text("prime-4093 add 1 ", NOT_A_VALUE)
    cases.text("prime-4093 add  1", NOT_A_VALUE)
    cases.text("prime-4093 add 1  2", WRONG_NUMBER)
    cases.text("prime-4093 add 1 2 ", WRONG_NUMBER)
    cases.text("prime-4093 nonresidue ", WRONG_NUMBER)
    cases.text("prime-4093 sqrt-minus-one ", WRONG_NUMBER)
    cases.text("short-4093 neg 1, 2", WRONG_NUMBER)
    cases.text("short-4093 add 1, 2", NOT_A_VALUE)
    cases.text("short-4093 add 1 ,2", NOT_A_VALUE)


def not_values(cases):
    cases.group("Arguments that are not values")
    for word in (
        ",", ",,", "1,", ",1", "1,,2", "+1", "-1", "1+", "1-", "-0", "0x10", "0X10", "0b1", "0o7", "1e3", "1.0", "1.",
        ".5", "1_0", "1'0", "1;2", "1:2", "1/2", "(1)", "[1]", "\"1\"", "'1'", "x", "ff", "a1", "1a", "zero", "yes",
        "nan", "inf", "~", "!", "#", "#1", "X", "2X", "X^2", "*", "=1", "$1", "%31", "\\1", "\\n", "-", "+", "1,+2",
        "1,-2", "1,0x2", "1,2,x",
    ):
        cases.text("prime-4093 neg " + word, NOT_A_VALUE)
    for word in ("1,-1", "1,+1", "-1,1", "1,", ",1", "1,,1", "1,x", "x,1", "1;1", "(1,1)", "1.1"):
        cases.text("short-1021 inverse " + word, NOT_A_VALUE)
    for form in FORMS:
        right = [1] * COUNTS[form[0]]
        cases.ask(form, "mul", right, notation(right) + ",", expected=NOT_A_VALUE)
        cases.ask(form, "mul", "," + notation(right), right, expected=NOT_A_VALUE)
        cases.ask(form, "square", notation(right) + "a", expected=NOT_A_VALUE)


def no_such_words(cases):
    cases.group("No such form")
    for word in (
        "long-61", "prime-61", "prime-2", "prime-", "prime", "-4093", "4093", "prime-04093", "prime-40930", "prime-409",
        "prime-1022", "prime-4093,", "prime_4093", "prime4093", "prime--4093", "Prime-4093", "PRIME-4093", "Long-1021",
        "LONG-1021", "shorT-4093", "Poly-4093", "medium-4093", "polynomial-4093", "tower-4093", "add", "neg",
        "prime-+4093", "prime-0x3fd", "?", "~", "!#", "yes", "refused",
    ):
        cases.text(word + " neg 1", NO_FORM)
    cases.text("long-61", NO_FORM)
    cases.text("nothing", NO_FORM)
    cases.group("No such operation, or none at all")
    for form in FORMS:
        cases.text("%s-%d" % form, NO_OPERATION)
    for word in (
        "Add", "ADD", "adds", "ad", "sub", "div", "inv", "Inverse", "sqrt", "sqr", "squared", "non-residue", "nonresidues",
        "by_nonresidue", "by-nonresidu", "by-Nonresidue", "sqrt-minus-One", "sqrt-minus", "Same", "equal", "minus", "+",
        "1", "#", "prime-4093", "add,", "?", "~",
    ):
        cases.text("prime-4093 %s 1" % word, NO_OPERATION)
    for word in ("Convert", "CONVERT", "conv", "converts"):
        cases.text("long-4093 %s 0,0,0,0,0,0,0,0" % word, NO_OPERATION)
        cases.text("poly-1021 %s 0,0,0,0,0,0,0,0" % word, NO_OPERATION)
    cases.group("Conversion is not an operation of the prime and short forms")
    for q in MODULI:
        cases.text("prime-%d convert 1" % q, NO_OPERATION)
        cases.text("short-%d convert 1,2" % q, NO_OPERATION)


def numbers_of_arguments(cases):
    cases.group("Too many and too few arguments, every operation")
    taken = {"add": 2, "neg": 1, "mul": 2, "square": 1, "inverse": 1, "nonresidue": 0, "by-nonresidue": 1, "sqrt-minus-one": 0, "same": 2}
    for form in (("prime", 4093), ("short", 1021)):
        value = notation([1] * COUNTS[form[0]])
        for operation, right in taken.items():
            for number in sorted({0, right - 1, right + 1, 5} - {-1, right}):
                cases.ask(form, operation, *[value] * number, expected=WRONG_NUMBER)
    for form in (("long", 4093), ("poly", 1021)):
        for number in (0, 2, 3):
            cases.ask(form, "convert", *[[1] * 8] * number, expected=WRONG_NUMBER)
        cases.ask(form, "nonresidue", [1] * 8, expected=WRONG_NUMBER)
        cases.ask(form, "sqrt-minus-one", [1] * 8, expected=WRONG_NUMBER)
        cases.ask(form, "add", [1] * 8, expected=WRONG_NUMBER)
    cases.text("prime-4093 neg 1 # no comment after a command", WRONG_NUMBER)
    cases.text("long-4093 neg 1 2 3 4 5 6 7 8", WRONG_NUMBER)


def not_text(cases):
    cases.group("Bytes that are not text: tabs, control bytes, NUL, DEL and bytes over 127")
    for line in (
        b"prime-4093\tneg 1", b"prime-4093 neg\t1", b"prime-4093 neg 1\t", b"\tprime-4093 neg 1", b"\t",
        b"prime-4093 neg 1\x00", b"\x00", b"\x00prime-4093 neg 1", b"prime-4093\x00 neg 1", b"prime-4093 neg 1\x002",
        b"\x00# not a comment", b"prime-4093 neg 1\x0b", b"prime-4093 neg 1\x0c", b"prime-4093 neg 1\x1b[0m",
        b"prime-4093 neg 1\x1a", b"prime-4093 neg 1\x1f", b"prime-4093 neg 1\x7f", b"prime-4093 neg 1\x80",
        b"prime-4093 neg 1\x85", b"prime-4093 neg\xa01", b"prime-4093 neg \xff", b"\xff\xfe", b"\xef\xbb\xbfprime-4093 neg 1",
        "prime-4093 neg \u00e9".encode(), "prime-4093 neg \u0661".encode(), "prime-4093 neg \uff11".encode(),
        "prime-4093 neg \u22121".encode(), "prime-4093 neg 1\u2028".encode(), "prim\u00e9-4093 neg 1".encode(),
        b"prime-4093 neg \xc3", b"\xc0\x80", b"\xed\xa0\x80", b"\xf0\x9f\x98\x80",
    ):
        cases.raw(line, NOT_TEXT)


def carriage_returns(cases):
    cases.group("Carriage returns: one before the newline is dropped, any other is not text")
    cases.raw(b"prime-4093 neg 1\r", "4092")
    cases.raw(b"short-1021 inverse 3,5\r", "747,797")
    cases.raw(b"long-1021 nonresidue\r", "0,0,0,0,1,0,0,0")
    cases.raw(b"prime-4093 neg \r", NOT_A_VALUE)
    cases.raw(b"prime-4093\r", NO_OPERATION)
    cases.raw(b" \r", NO_FORM)
    cases.raw(b"prime-4093 neg 1\r\r", NOT_TEXT)
    cases.raw(b"\r\r", NOT_TEXT)
    cases.raw(b"\rprime-4093 neg 1", NOT_TEXT)
    cases.raw(b"prime-4093\rneg 1", NOT_TEXT)
    cases.raw(b"prime-4093 neg 1\rprime-4093 neg 2", NOT_TEXT)
    cases.raw(b"\r# not a comment", NOT_TEXT)


def passed_over(cases):
    cases.group("Comments and empty lines have no answer")
    cases.text("prime-4093 neg 1", "4092")
    for line in (
        b"", b"\r", b"", b"#", b"#\r", b"##", b"#prime-4093 neg 1", b"# prime-4093 neg 1", b"#\tprime-4093 neg 1",
        b"# \x00 \x7f \xff", "# caf\u00e9".encode(), b"#\r\r", b"# a\rb",
    ):
        cases.passed_over(line)
    cases.text("prime-4093 neg 2", "4091")
    cases.passed_over(b"# A comment of 4097 bytes and one of 9000, each with a command at its end")
    cases.passed_over(padded(b"# ", b" prime-4093 neg 3", 4097))
    cases.text("prime-4093 neg 3", "4090")
    cases.passed_over(padded(b"#", b" prime-4093 neg 4", 9000))
    cases.text("prime-4093 neg 4", "4089")
    cases.passed_over(b"#" + b"\xff" * 4096)
    cases.text("prime-4093 neg 5", "4088")


def long_lines(cases):
    cases.group("Lines of exactly 4095, 4096 and 4097 bytes")
    start = b"prime-4093 neg "
    cases.raw(padded(start, b"7", 4095), "4086")
    cases.raw(padded(start, b"7", 4096), "4086")
    cases.raw(padded(start, b"7", 4097), TOO_LONG)
    cases.raw(padded(start, b"4093", 4096), out_of_range(0))
    cases.raw(start + b"9" * (4096 - len(start)), out_of_range(0))
    cases.raw(start + b"9" * (4097 - len(start)), TOO_LONG)
    cases.raw(padded(b"prime-1021 add ", b"5 6", 4096), "11")
    cases.raw(padded(b"long-4093 mul 0,0,0,0,1,0,0,0 ", b",0,0,0,1,0,0,0", 4096), "0,0,1,0,0,0,0,0")
    cases.group("A carriage return before the newline does not count")
    cases.raw(padded(start, b"8", 4096) + b"\r", "4085")
    cases.raw(padded(start, b"8", 4097) + b"\r", TOO_LONG)
    cases.group("Long lines that are not understood")
    cases.raw(b"x" * 4096, NO_FORM)
    cases.raw(b"x" * 4097, TOO_LONG)
    cases.raw(b" " * 4096, NO_FORM)
    cases.raw(b" " * 4097, TOO_LONG)
    cases.raw(start + b"x" * (4096 - len(start)), NOT_A_VALUE)
    cases.raw(start + b" " * (4096 - len(start)), WRONG_NUMBER)
    cases.raw(padded(b"prime-4093 ", b" 1", 4096), NO_OPERATION)
    cases.raw(b"long-4093 neg 0" + b",0" * 2040, WRONG_COUNT)
    cases.raw(b"short-4093 neg " + b"," * (4096 - len(b"short-4093 neg ")), NOT_A_VALUE)
    cases.group("The length is tested before the text")
    cases.raw(padded(start, b"\xff", 4096), NOT_TEXT)
    cases.raw(padded(start, b"\xff", 4097), TOO_LONG)
    cases.raw(b"\x00" * 4096, NOT_TEXT)
    cases.raw(b"\x00" * 4097, TOO_LONG)
    cases.group("A line far too long has one answer, also where it ends as a command would")
    cases.raw(padded(start, b" prime-4093 neg 9", 9000), TOO_LONG)
    cases.raw(b"prime-4093 neg 9 " * 1000, TOO_LONG)
    cases.text("prime-4093 neg 9", "4084")


# --- Encodings, blocks and tags ----------------------------------------------


def turned(family, numbers):
    """From the form's own order to that by power, or back: the same exchange."""
    return [numbers[power_of(family, place)] for place in range(COUNTS[family])]


def binary(number, digits):
    return format(number, "0%db" % digits)


def from_binary(digits):
    assert len(digits) % 8 == 0
    return bytes(int(digits[start : start + 8], 2) for start in range(0, len(digits), 8))


def encoded(form, powers, padding=None):
    """The encoding of numbers by power, also of numbers out of range, by
    writing down the binary digits of each; padding is text of 0 and 1."""
    digits = "".join(binary(number, WIDTHS[form[1]]) for number in powers)
    return from_binary(digits + ("0" * (-len(digits) % 8) if padding is None else padding))


def cut_block(form, block):
    """The coefficients by power of a block, by cutting its binary digits."""
    group = WIDTHS[form[1]] - 1
    digits = "".join(binary(byte, 8) for byte in block).ljust(group * COUNTS[form[0]], "0")
    return [int(digits[start : start + group], 2) for start in range(0, len(digits), group)]


def with_byte(content, place, byte):
    return content[:place] + bytes([byte]) + content[place + 1 :]


def known_encodings(cases):
    for form, sizes in SIZES.items():
        counted = second.FORMS["%s-%d" % form]
        assert sizes == (second.encoded_size(counted), second.block_size(counted))
    cases.group("Encodings, blocks, bodies and tags known from calculation by hand")
    poly, long = ("poly", 4093), ("long", 4093)
    cases.ask(poly, "encode", [1, 0, 0, 0, 0, 0, 0, 4092], expected="001000000000000000000FFC")
    cases.ask(poly, "decode", "001000000000000000000FFC", expected=[1, 0, 0, 0, 0, 0, 0, 4092])
    cases.ask(poly, "decode", "001000000000000000000FFD", expected="refused 1 0 7")
    cases.ask(poly, "encode", [1, 2, 3, 4, 5, 6, 7, 8], expected="001002003004005006007008")
    cases.ask(long, "encode", [1, 2, 3, 4, 5, 6, 7, 8], expected="001005003007002006004008")
    cases.ask(long, "decode", "001002003004005006007008", expected=[1, 5, 3, 7, 2, 6, 4, 8])
    cases.ask(("short", 4093), "encode", [1, 2], expected="001002")
    cases.ask(("short", 1021), "encode", [1, 2], expected="004020")
    cases.ask(("short", 1021), "decode", "004020", expected=[1, 2])
    cases.ask(("short", 1021), "decode", "000001", expected="refused 4 0 0")
    for family in ("long", "poly"):
        for q, first in ((4093, 1024), (1021, 256)):
            size = SIZES[family, q][1]
            expected = [first, 0, 0, 0, 0, 0, 0, 0]
            cases.ask((family, q), "block", b"\x80" + bytes(size - 1), expected=expected)
            cases.ask((family, q), "block", "80", expected=expected)
    cases.ask(poly, "body", "0", "5", "-", expected="0005")
    cases.ask(poly, "body", "1", "0", "41", expected="004041")
    cases.ask(poly, "body", "1023", "63", "-", expected="FFFF")
    # The key is X, or g in the short form, whose square is 2. The block 0005 is
    # 320 X at 4093 and 20 X at 1021; the length block is 128 X and 8 X.
    for family in ("long", "poly"):
        cases.ask((family, 4093), "tag", "000001000000000000000000", bytes(12), "0005", expected="000000080140000000000000")
        cases.ask((family, 1021), "tag", "00001000000000000000", bytes(10), "0005", expected="00000020140000000000")
    cases.ask(("short", 4093), "tag", "000001", "000000", "0005", expected="100280")
    cases.ask(("short", 1021), "tag", "000010", "000000", "0005", expected="040280")
    cases.ask(("short", 4093), "tag", "000001", "001FFC", "0005", expected="10127F")
    for q, most in ((4093, 40), (1021, 49)):
        for family in ("long", "poly"):
            cases.ask((family, q), "blocks", "2", expected="1")
            cases.ask((family, q), "blocks", "440", expected=str(most))
        cases.ask(("short", q), "blocks", "2", expected="1")
        cases.ask(("short", q), "blocks", "440", expected="220")


def encodings(cases, draw):
    for form in SIZES:
        family, q = form
        count = COUNTS[family]
        cases.group("Values encoded and decoded in %s-%d" % form)
        values = [[0] * count, [q - 1] * count, [1] * count, list(range(1, count + 1))]
        values += [draw.value(family, q) for _ in range(4)]
        for value in values:
            encoding = encoded(form, turned(family, value))
            cases.ask(form, "encode", value, expected=encoding)
            cases.ask(form, "decode", encoding, expected=value)
        lower = notation(encoding).lower()
        cases.ask(form, "decode", lower, expected=value)
        cases.ask(form, "decode", lower[:3].upper() + lower[3:], expected=value)
        cases.ask(form, "encode", ",".join("0" * 20 + str(number) for number in value), expected=encoding)
        cases.group("A single coefficient at each place encoded in %s-%d" % form)
        for place in range(count):
            for number in (1, q - 1):
                value = single(family, place, number)
                cases.ask(form, "encode", value, expected=encoded(form, turned(family, value)))


def encode_refused(cases):
    cases.group("Encoding refuses another count of numbers, and a number out of range")
    for form in SIZES:
        family, q = form
        count = COUNTS[family]
        for wrong in sorted({1, count - 1, count + 1, 300} - {count}):
            cases.ask(form, "encode", [1] * wrong, expected=WRONG_COUNT)
        for place in range(count):
            cases.ask(form, "encode", single(family, place, q), expected=out_of_range(power_of(family, place)))
        cases.ask(form, "encode", [65536] * count, expected=out_of_range(0))
        cases.ask(form, "encode", single(family, count - 1, THIRTY_DIGITS), expected=out_of_range(count - 1))
        cases.ask(form, "encode", [q] * (count + 1), expected=WRONG_COUNT)


def decode_edges(cases, draw):
    for form in SIZES:
        family, q = form
        count = COUNTS[family]
        ones = 2 ** WIDTHS[q] - 1
        cases.group("Decoding the edges of the range at each power of X in %s-%d" % form)
        for power in range(count):
            powers = turned(family, draw.value(family, q))
            largest = with_number(powers, power, q - 1)
            cases.ask(form, "decode", encoded(form, largest), expected=turned(family, largest))
            for number in (q, q + 1, ones):
                cases.ask(form, "decode", encoded(form, with_number(powers, power, number)), expected=out_of_range(power))
        cases.group("Decoding several coefficients out of range in %s-%d: the smallest power is told" % form)
        for power in range(count):
            # From this power on all are out of range.
            cases.ask(form, "decode", encoded(form, [q - 1] * power + [q] * (count - power)), expected=out_of_range(power))
        for power in range(count - 1):
            both = with_number(with_number([0] * count, power, ones), count - 1, q)
            cases.ask(form, "decode", encoded(form, both), expected=out_of_range(power))
        cases.ask(form, "decode", b"\xff" * SIZES[form][0], expected=out_of_range(0))


def decode_sizes(cases, draw):
    for form in SIZES:
        family, q = form
        size = SIZES[form][0]
        cases.group("Decoding another count of bytes in %s-%d" % form)
        for wrong in sorted({0, 1, 2, size - 1, size + 1, 2 * size, 440, 1000}):
            cases.ask(form, "decode", bytes(wrong), expected=WRONG_COUNT)
        value = draw.value(family, q)
        encoding = encoded(form, turned(family, value))
        cases.ask(form, "decode", encoding, expected=value)
        cases.ask(form, "decode", encoding[:-1], expected=WRONG_COUNT)
        cases.ask(form, "decode", encoding[1:], expected=WRONG_COUNT)
        cases.ask(form, "decode", encoding + b"\x00", expected=WRONG_COUNT)
        cases.ask(form, "decode", b"\x00" + encoding, expected=WRONG_COUNT)
    cases.group("Decoding the count of bytes that another form has")
    cases.ask(("poly", 4093), "decode", bytes(10), expected=WRONG_COUNT)
    cases.ask(("poly", 1021), "decode", bytes(12), expected=WRONG_COUNT)
    cases.ask(("long", 4093), "decode", bytes(3), expected=WRONG_COUNT)
    cases.ask(("short", 1021), "decode", bytes(10), expected=WRONG_COUNT)


def decode_padding(cases, draw):
    short = ("short", 1021)
    cases.group("Padding bits in short-1021: each alone, then several")
    for powers in ([0, 0], [1020, 1020], draw.value(*short)):
        cases.ask(short, "decode", encoded(short, powers), expected=powers)
        for padding in ("1000", "0100", "0010", "0001", "1001", "1111"):
            cases.ask(short, "decode", encoded(short, powers, padding), expected=WRONG_PADDING)
    cases.group("Range is tested before padding, the count of bytes before both")
    for padding in ("0001", "1000", "1111"):
        cases.ask(short, "decode", encoded(short, [1021, 0], padding), expected=out_of_range(0))
        cases.ask(short, "decode", encoded(short, [0, 1021], padding), expected=out_of_range(1))
        cases.ask(short, "decode", encoded(short, [1020, 1023], padding), expected=out_of_range(1))
    for form in SIZES:
        cases.ask(form, "decode", b"\xff" * (SIZES[form][0] - 1), expected=WRONG_COUNT)
        cases.ask(form, "decode", b"\xff" * (SIZES[form][0] + 1), expected=WRONG_COUNT)
    cases.group("Where there is no padding the last bit is one of a coefficient")
    for form in SIZES:
        family, q = form
        last = bytes(SIZES[form][0] - 1) + b"\x01"
        expected = WRONG_PADDING if form == short else single(family, COUNTS[family] - 1, 1)
        cases.ask(form, "decode", last, expected=expected)


def block_values(cases, draw):
    for form in SIZES:
        family, q = form
        count, group = COUNTS[family], WIDTHS[q] - 1
        size = SIZES[form][1]
        cases.group("Blocks in %s-%d" % form)
        for length in sorted({0, 1, 2, size - 1, size}):
            contents = [bytes(length)]
            if length:
                contents += [b"\x80" + bytes(length - 1), bytes(length - 1) + b"\x01", b"\xff" * length]
                contents += [draw.bytes(length), draw.bytes(length)]
            for block in contents:
                cases.ask(form, "block", block, expected=cut_block(form, block))
        for length in (size + 1, 2 * size, 440):
            for block in (bytes(length), b"\xff" * length, draw.bytes(length)):
                cases.ask(form, "block", block, expected=WRONG_COUNT)
        cases.group("A shorter block is as if filled up with 00 in %s-%d" % form)
        for length in sorted({1, size - 1}):
            block = draw.bytes(length)
            short_answer = cases.ask(form, "block", block)
            cases.ask(form, "block", block + bytes(size - length), expected=short_answer)
            cases.ask(form, "block", notation(block).lower(), expected=short_answer)
        cases.group("The first and the last bit of each coefficient of a block in %s-%d" % form)
        for power in range(count):
            for bit in (0, group - 1):
                place = power * group + bit
                if place < 8 * size:
                    block = from_binary("0" * place + "1" + "0" * (8 * size - 1 - place))
                    powers = with_number([0] * count, power, 2 ** (group - 1 - bit))
                    cases.ask(form, "block", block, expected=powers)


def bodies(cases, draw):
    poly = ("poly", 4093)
    cases.group("The number and the route of a body at their edges")
    for number in (0, 1, 2, 3, 4, 255, 256, 511, 512, 1022, 1023):
        cases.ask(poly, "body", number, 0, "-", expected="%04X" % (64 * number))
    for route in (1, 2, 31, 32, 62, 63):
        cases.ask(poly, "body", 0, route, "-", expected="%04X" % route)
        cases.ask(poly, "body", 1023, route, "-", expected="%04X" % (65472 + route))
    large = [2**digits + 5 for digits in (16, 32, 64, 128)] + [THIRTY_DIGITS]
    for number in [1024, 1025, 2047, 2048, 65535, 65536] + large:
        cases.ask(poly, "body", number, 0, "-", expected=NUMBER_TOO_LARGE)
    for route in [64, 65, 127, 128, 255, 256, 65535, 65536] + large:
        cases.ask(poly, "body", 0, route, "-", expected=ROUTE_TOO_LARGE)
    cases.ask(poly, "body", "0000000000000000000000000000001", "00000000000000000000002", "-", expected="0042")
    cases.ask(poly, "body", "00001023", "00063", "-", expected="FFFF")
    cases.ask(poly, "body", "00001024", "00063", "-", expected=NUMBER_TOO_LARGE)
    cases.ask(poly, "body", "0000", "00064", "-", expected=ROUTE_TOO_LARGE)
    for form in SIZES:
        cases.group("Bodies in %s-%d" % form)
        number, route = draw.below(1024), draw.below(64)
        head = bytes([number // 4, number % 4 * 64 + route])
        for length in (0, 1, 2, 437, 438):
            text = draw.bytes(length)
            cases.ask(form, "body", number, route, text, expected=head + text)
        for length in (439, 440, 1000):
            cases.ask(form, "body", number, route, draw.bytes(length), expected=WRONG_LENGTH)
        cases.ask(form, "body", 0, 0, "00", expected="000000")
        cases.ask(form, "body", 1023, 63, "ff", expected="FFFFFF")
        cases.ask(form, "body", 1023, 63, "aBcDeF", expected="FFFFABCDEF")
        cases.ask(form, "body", 1024, 63, "00", expected=NUMBER_TOO_LARGE)
        cases.ask(form, "body", 1023, 64, "00", expected=ROUTE_TOO_LARGE)
    cases.group("The number is tested before the route, the route before the text")
    too_long = bytes(439)
    for form in SIZES:
        cases.ask(form, "body", 1024, 64, too_long, expected=NUMBER_TOO_LARGE)
        cases.ask(form, "body", 1024, 64, "-", expected=NUMBER_TOO_LARGE)
        cases.ask(form, "body", 1024, 0, too_long, expected=NUMBER_TOO_LARGE)
        cases.ask(form, "body", 0, 64, too_long, expected=ROUTE_TOO_LARGE)


def tags(cases, draw):
    for form in SIZES:
        family, q = form
        count, (encoded_size, size) = COUNTS[family], SIZES[form]

        def secret():
            return encoded(form, draw.value(family, q))

        zero, one = bytes(encoded_size), encoded(form, [1] + [0] * (count - 1))
        minus_one, largest = encoded(form, [q - 1] + [0] * (count - 1)), encoded(form, [q - 1] * count)

        cases.group("Tags of bodies of each length at an edge in %s-%d" % form)
        for length in sorted({2, 3, size, size + 1, 2 * size - 1, 2 * size, 2 * size + 1, 3 * size, 439, 440}):
            cases.ask(form, "tag", secret(), secret(), draw.bytes(length))
        for length in (0, 1, 441, 1000):
            cases.ask(form, "tag", secret(), secret(), draw.bytes(length), expected=WRONG_LENGTH)
        for length in sorted({2, size, 440}):
            for byte in (b"\x00", b"\xff"):
                cases.ask(form, "tag", largest, largest, byte * length)

        cases.group("The zero key, the key one and the key minus one in %s-%d" % form)
        pad = secret()
        for body in (draw.bytes(2), draw.bytes(2 * size + 1)):
            cases.ask(form, "tag", zero, pad, body, expected=pad)
            cases.ask(form, "tag", zero, zero, body, expected=zero)
            blocks = [body[start : start + size] for start in range(0, len(body), size)]
            columns = list(zip(*(cut_block(form, block) for block in blocks + [bytes([0, len(body)])])))
            cases.ask(form, "tag", one, zero, body, expected=encoded(form, [sum(column) % q for column in columns]))
            turns = [(-1) ** (len(blocks) + 1 - place) for place in range(len(blocks) + 1)]
            signed = [sum(sign * number for sign, number in zip(turns, column)) % q for column in columns]
            cases.ask(form, "tag", minus_one, zero, body, expected=encoded(form, signed))

        cases.group("Bodies that differ little have different tags in %s-%d" % form)
        key, pad = secret(), secret()
        seen = []
        for length in sorted({2, size, size + 1, 2 * size}):
            body = draw.bytes(length)
            tag = cases.ask(form, "tag", key, pad, body)
            # A final 00 more changes no block but that of the length, where the
            # last block has room for it.
            longer = cases.ask(form, "tag", key, pad, body + b"\x00")
            changed = cases.ask(form, "tag", key, pad, with_byte(body, length - 1, body[-1] ^ 1))
            seen += [tag, longer, changed]
        first, other, last = draw.bytes(size), draw.bytes(size), draw.bytes(1)
        for body in (first + other, other + first, first + other + last, other + first + last, first + last + other):
            seen.append(cases.ask(form, "tag", key, pad, body))
        assert len(set(seen)) == len(seen)

        cases.group("Another key or another pad in %s-%d" % form)
        body = draw.bytes(size + 1)
        seen = [cases.ask(form, "tag", key, pad, body), cases.ask(form, "tag", pad, key, body)]
        bare = cases.ask(form, "tag", key, zero, body)
        seen += [bare, cases.ask(form, "tag", key, largest, body), cases.ask(form, "tag", one, pad, body)]
        assert len(set(seen)) == len(seen)
        cases.ask(form, "tag", notation(key).lower(), notation(pad).lower(), notation(body).lower(), expected=seen[0])
        bare_value = cases.ask(form, "decode", bare)
        pad_value = cases.ask(form, "decode", pad)
        total = cases.ask(form, "add", bare_value, pad_value)
        cases.ask(form, "encode", total, expected=seen[0])

        cases.group("A body and its tag, block by block, in %s-%d" % form)
        text = draw.bytes(2 * size - 1)
        body = cases.ask(form, "body", draw.below(1024), draw.below(64), text)
        content = bytes.fromhex(body)
        cases.ask(form, "blocks", len(content), expected="3")
        key_value = cases.ask(form, "decode", key)
        total = single(family, 0, 0)
        for block in (content[:size], content[size : 2 * size], content[2 * size :], bytes([0, len(content)])):
            powers = cases.ask(form, "block", block).split(",")
            total = cases.ask(form, "add", total, turned(family, powers))
            total = cases.ask(form, "mul", total, key_value)
        total = cases.ask(form, "add", total, pad_value)
        tag = cases.ask(form, "encode", total)
        cases.ask(form, "tag", key, pad, body, expected=tag)

    cases.group("Long and poly have the same tags")
    for q in MODULI:
        for length in (2, 30, 440):
            key, pad = (encoded(("poly", q), draw.value("poly", q)) for _ in range(2))
            body = draw.bytes(length)
            tag = cases.ask(("poly", q), "tag", key, pad, body)
            cases.ask(("long", q), "tag", key, pad, body, expected=tag)


def tags_refused(cases, draw):
    body = bytes([0, 5])
    for form in SIZES:
        family, q = form
        count, (size, _) = COUNTS[family], SIZES[form]
        right = encoded(form, draw.value(family, q))
        cases.group("Keys and pads that are refused in %s-%d" % form)
        for wrong in sorted({0, 1, size - 1, size + 1, 2 * size}):
            cases.ask(form, "tag", bytes(wrong), right, body, expected="refused 3 1 0")
            cases.ask(form, "tag", right, bytes(wrong), body, expected="refused 3 2 0")
        for power in range(count):
            over = encoded(form, with_number(draw.value(family, q), power, q))
            cases.ask(form, "tag", over, right, body, expected=out_of_range(power, KEY))
            cases.ask(form, "tag", right, over, body, expected=out_of_range(power, PAD))
        ones = b"\xff" * size
        cases.ask(form, "tag", ones, right, body, expected=out_of_range(0, KEY))
        cases.ask(form, "tag", right, ones, body, expected=out_of_range(0, PAD))
        cases.group("Key, pad and body are tested in this order in %s-%d" % form)
        over = encoded(form, [0] * (count - 1) + [q])
        cases.ask(form, "tag", over, ones, "-", expected=out_of_range(count - 1, KEY))
        cases.ask(form, "tag", ones, over, body, expected=out_of_range(0, KEY))
        cases.ask(form, "tag", "-", "-", "-", expected="refused 3 1 0")
        cases.ask(form, "tag", right, "-", "-", expected="refused 3 2 0")
        cases.ask(form, "tag", right, right, "-", expected=WRONG_LENGTH)
        cases.ask(form, "tag", over, "-", body, expected=out_of_range(count - 1, KEY))
        cases.ask(form, "tag", "-", over, body, expected="refused 3 1 0")
        cases.ask(form, "tag", right, over, bytes(441), expected=out_of_range(count - 1, PAD))
        cases.ask(form, "tag", right, ones, "00", expected=out_of_range(0, PAD))
        cases.ask(form, "tag", "00", right, bytes(441), expected="refused 3 1 0")
        cases.ask(form, "tag", right, right, bytes(441), expected=WRONG_LENGTH)
        cases.ask(form, "tag", right, right, "00", expected=WRONG_LENGTH)
    short = ("short", 1021)
    cases.group("Padding bits of keys and pads in short-1021")
    right = encoded(short, draw.value(*short))
    for padding in ("1000", "0100", "0010", "0001", "1111"):
        wrong = encoded(short, draw.value(*short), padding)
        cases.ask(short, "tag", wrong, right, body, expected="refused 4 1 0")
        cases.ask(short, "tag", right, wrong, body, expected="refused 4 2 0")
        cases.ask(short, "tag", wrong, wrong, "-", expected="refused 4 1 0")
        cases.ask(short, "tag", right, wrong, "-", expected="refused 4 2 0")
        cases.ask(short, "tag", encoded(short, [0, 0], padding), right, body, expected="refused 4 1 0")
    cases.ask(short, "tag", encoded(short, [1021, 0], "0001"), right, body, expected=out_of_range(0, KEY))
    cases.ask(short, "tag", right, encoded(short, [0, 1021], "0001"), body, expected=out_of_range(1, PAD))


def tickets(cases, draw):
    for form in SIZES:
        family, q = form
        count, (size, block) = COUNTS[family], SIZES[form]
        key, right = (encoded(form, draw.value(family, q)) for _ in range(2))
        over = encoded(form, [0] * (count - 1) + [q])
        ones = b"\xff" * size

        def ticket(number, route, text, pad):
            """A ticket whose tag the calculator itself has made."""
            body = cases.ask(form, "body", number, route, text)
            return bytes.fromhex(body + cases.ask(form, "tag", key, pad, body))

        def ask(pads, content, expected):
            return cases.ask(form, "ticket", key, pads, content, expected=expected)

        cases.group("Tickets with their right tags in %s-%d" % form)
        most = min(1024, 3000 // (2 * size))
        pads = [encoded(form, draw.value(family, q)) for _ in range(most)]
        row = b"".join(pads)
        for number, route, length in ((0, 0, 0), (1, 63, 1), (most - 1, 5, block), (7, 40, block - 1), (2, 9, 2 * block)):
            text = draw.bytes(length)
            ask(row, ticket(number, route, text, pads[number]), "%d %d %s" % (number, route, notation(text)))
        longest = draw.bytes(438)
        ask(pads[0], ticket(0, 17, longest, pads[0]), "0 17 %s" % notation(longest))
        ask(bytes(size), ticket(0, 1, b"", bytes(size)), "0 1 -")

        cases.group("Tickets that are refused in %s-%d" % form)
        good = ticket(1, 5, b"Hi", pads[1])
        body, tag = good[:-size], good[-size:]
        two = pads[0] + pads[1]
        ask(two, good, "1 5 4869")
        for length in (0, 1, size, size + 1, size + 441):
            ask(two, bytes(length), WRONG_LENGTH)
        ask(pads[0], bytes(size + 440), FALSE_TAG)
        for wrong in (b"", two[:-1], two + b"\x00", b"\x00"):
            ask(wrong, good, BAD_PADS)
        ask(pads[0], good, NUMBER_TOO_LARGE)
        ask(two, b"\xff\xff" + tag, NUMBER_TOO_LARGE)
        ask(pads[0] + over, good, out_of_range(count - 1, PAD))
        ask(over + pads[1], good, "1 5 4869")
        ask(two + ones, good, "1 5 4869")
        ask(two, body + over, out_of_range(count - 1, TAG))
        ask(pads[1] + pads[0], good, FALSE_TAG)
        ask(two, body + with_byte(tag, 0, tag[0] ^ 16), None)
        ask(two, body + b"\x00" + tag, FALSE_TAG)
        ask(two, body[:-1] + tag, FALSE_TAG)
        # A bit of the first byte is of the number.
        ask(two, with_byte(body, 0, body[0] ^ 1) + tag, NUMBER_TOO_LARGE)
        for place in range(1, len(body)):
            ask(two, with_byte(body, place, body[place] ^ 1) + tag, FALSE_TAG)
        cases.ask(form, "ticket", right, two, good, expected=FALSE_TAG)

        cases.group("The order of the tests of a ticket in %s-%d" % form)
        cases.ask(form, "ticket", over, "-", "-", expected=out_of_range(count - 1, KEY))
        cases.ask(form, "ticket", "-", "-", "-", expected="refused 3 1 0")
        ask("-", "-", WRONG_LENGTH)
        ask("-", bytes(size + 441), WRONG_LENGTH)
        ask("00", b"\xff\xff" + ones, BAD_PADS)
        ask(over, b"\xff\xff" + ones, NUMBER_TOO_LARGE)
        ask(pads[0] + over, body + ones, out_of_range(count - 1, PAD))
        ask(two, body + ones, out_of_range(0, TAG))
    short = ("short", 1021)
    cases.group("Padding bits of pads and tags in short-1021")
    key = encoded(short, draw.value(*short))
    for padding in ("1000", "0001"):
        wrong = encoded(short, draw.value(*short), padding)
        cases.ask(short, "ticket", key, wrong, bytes(2) + wrong, expected="refused 4 2 0")
        cases.ask(short, "ticket", key, bytes(3), bytes(2) + wrong, expected="refused 4 3 0")
        cases.ask(short, "ticket", wrong, bytes(3), bytes(2) + wrong, expected="refused 4 1 0")
    cases.group("A ticket and its pads that are not bytes")
    for form in SIZES:
        key = bytes(SIZES[form][0])
        cases.ask(form, "ticket", "0", "-", "-", expected=NOT_BYTES)
        cases.ask(form, "ticket", "-", "x", "-", expected=NOT_BYTES)
        cases.ask(form, "ticket", key, "-", "0g", expected=NOT_BYTES)
        cases.ask(form, "ticket", key, "-", expected=WRONG_NUMBER)
    for q in MODULI:
        cases.ask(("prime", q), "ticket", "-", "-", "-", expected=NO_OPERATION)


def counts_of_blocks(cases):
    for form in SIZES:
        size = SIZES[form][1]
        cases.group("Counts of blocks in %s-%d" % form)
        lengths = {2, 3, 4, size - 1, size, size + 1, 2 * size - 1, 2 * size, 2 * size + 1}
        lengths |= {255, 256, 257, 439, 440, 440 // size * size, 440 // size * size - 1}
        for length in sorted(lengths - {1}):
            expected = len(range(0, length, size))
            cases.ask(form, "blocks", length, expected=expected)
        cases.ask(form, "blocks", "0" * 40 + "440", expected=len(range(0, 440, size)))
        for length in (0, "00", 1, "001", 441, "0441", 442, 65535, 65536, 65536 + 5, 2**32 + 5, 2**64 + 5, 2**128 + 5, THIRTY_DIGITS):
            cases.ask(form, "blocks", length, expected=WRONG_LENGTH)


def not_bytes(cases):
    cases.group("Words that are not bytes")
    words = (
        "0", "000", "00000", "A", "x", "0x", "0x00", "0X00", "00x", "G0", "0G", "g0", "0g", "/0", "0/", ":0", "0:", "@0", "0@",
        "`0", "0`", "--", "-0", "-00", "00-", "0-", "+0", "00,00", "00,", ",00", "0,0", "00.", "00:00", "0h", "0xFF", "00h", "\"00\"", "'00'",
        "_0", "0_0_", "#0", "zz", "OO", "~~", "..", "FF_F",
    )
    for word in words:
        cases.ask(("short", 4093), "decode", word, expected=NOT_BYTES)
    for form in SIZES:
        right = bytes(SIZES[form][0])
        for word in ("", "0", "000", "0G", "g0", "--"):
            cases.ask(form, "decode", word, expected=NOT_BYTES)
            cases.ask(form, "block", word, expected=NOT_BYTES)
            cases.ask(form, "body", 0, 0, word, expected=NOT_BYTES)
            cases.ask(form, "tag", word, right, "0005", expected=NOT_BYTES)
            cases.ask(form, "tag", right, word, "0005", expected=NOT_BYTES)
            cases.ask(form, "tag", right, right, word, expected=NOT_BYTES)
    cases.group("Upper and lower case are the same bytes")
    cases.ask(("short", 4093), "decode", "abcdef", expected=[0xABC, 0xDEF])
    cases.ask(("short", 4093), "decode", "ABCDEF", expected=[0xABC, 0xDEF])
    cases.ask(("short", 4093), "decode", "aBcDeF", expected=[0xABC, 0xDEF])
    cases.ask(("poly", 4093), "body", 0, 0, "aAbBcCdDeEfF", expected="0000AABBCCDDEEFF")


def not_numbers(cases):
    cases.group("Words that are not a number")
    words = (
        "", "-", "x", "-1", "+1", "1,2", "1,", ",1", "1.0", "1.", "0x10", "1e2", "1_0", "1'0", "A", "1A", "a1", "/", ":", "0/", "0:", "--", "#", "1#", "\"1\"",
    )
    for word in words:
        cases.ask(("poly", 1021), "blocks", word, expected=NOT_A_NUMBER)
        cases.ask(("short", 4093), "body", word, 0, "-", expected=NOT_A_NUMBER)
        cases.ask(("long", 4093), "body", 0, word, "-", expected=NOT_A_NUMBER)
    cases.group("Words that are not a value to be encoded")
    for form in SIZES:
        for word in ("", "-", "x", "1,", "0xFF,0", "1;2"):
            cases.ask(form, "encode", word, expected=NOT_A_VALUE)
    cases.group("The first argument that is not understood decides")
    for form in SIZES:
        cases.ask(form, "body", "x", "x", "x", expected=NOT_A_NUMBER)
        cases.ask(form, "body", "x", 0, "x", expected=NOT_A_NUMBER)
        cases.ask(form, "body", 0, "x", "x", expected=NOT_A_NUMBER)
        cases.ask(form, "body", 0, 0, "x", expected=NOT_BYTES)
    cases.group("All arguments are understood before any is tested")
    for form in SIZES:
        right = bytes(SIZES[form][0])
        cases.ask(form, "body", 1024, 64, "x", expected=NOT_BYTES)
        cases.ask(form, "body", 1024, "x", "-", expected=NOT_A_NUMBER)
        cases.ask(form, "body", 0, 64, "0", expected=NOT_BYTES)
        cases.ask(form, "tag", "-", "-", "0", expected=NOT_BYTES)
        cases.ask(form, "tag", "-", "0", "-", expected=NOT_BYTES)
        cases.ask(form, "tag", b"\xff" * len(right), right, "x", expected=NOT_BYTES)
        cases.ask(form, "tag", right, b"\xff" * len(right), "x", expected=NOT_BYTES)


def coded_words(cases):
    taken = {"encode": 1, "decode": 1, "block": 1, "body": 3, "tag": 3, "blocks": 1}
    cases.group("Encodings, blocks, bodies and tags are not operations of the prime forms")
    rights = {"encode": ["1"], "decode": ["0000"], "block": ["00"], "body": ["0", "0", "-"], "tag": ["0000", "0000", "0005"], "blocks": ["2"]}
    for q in MODULI:
        for operation in taken:
            cases.ask(("prime", q), operation, *rights[operation], expected=NO_OPERATION)
            cases.ask(("prime", q), operation, expected=NO_OPERATION)
            cases.ask(("prime", q), operation, "x", "x", expected=NO_OPERATION)
    cases.group("Words that are near an operation's and are none")
    for word in ("Encode", "ENCODE", "encodes", "encod", "Decode", "decoded", "Block", "BLOCKS", "bloc", "Blocks", "block-", "Body", "bodies", "bod", "Tag", "TAG", "tags", "ta", "tag-"):
        cases.text("poly-4093 %s 2" % word, NO_OPERATION)
    cases.group("Too many and too few arguments")
    for form in SIZES:
        for operation, right in taken.items():
            for number in sorted({0, right - 1, right + 1} - {right}):
                cases.ask(form, operation, *["00"] * number, expected=WRONG_NUMBER)
    cases.group("The number of arguments is tested before them")
    cases.text("short-4093 decode x x", WRONG_NUMBER)
    cases.text("short-4093 decode 00 10 02", WRONG_NUMBER)
    cases.text("short-4093 body x x", WRONG_NUMBER)
    cases.text("short-4093 tag x", WRONG_NUMBER)
    cases.text("short-4093 blocks 1 x", WRONG_NUMBER)
    cases.group("Two spaces, or one at the end, make an empty word")
    cases.text("short-4093 decode 001002 ", WRONG_NUMBER)
    cases.text("short-4093 decode  001002", WRONG_NUMBER)
    cases.text("short-4093 body 0 0 ", NOT_BYTES)
    cases.text("short-4093 body 0  -", NOT_A_NUMBER)
    cases.text("short-4093 body  0 -", NOT_A_NUMBER)
    cases.text("short-4093 tag 000000 000000 ", NOT_BYTES)
    cases.text("short-4093 tag  000000 0005", NOT_BYTES)
    cases.group("Bytes that are not text, and carriage returns")
    cases.raw(b"short-4093 decode 0010\t02", NOT_TEXT)
    cases.raw(b"short-4093 decode 0010\x00", NOT_TEXT)
    cases.raw(b"short-4093 body 0 0 \xff\xff", NOT_TEXT)
    cases.raw(b"short-4093 decode 001002\r", "1,2")
    cases.raw(b"short-4093 body 0 0 -\r", "0000")
    cases.raw(b"short-4093 decode 001002\r\r", NOT_TEXT)


def long_coded_lines(cases):
    cases.group("Arguments that make lines of 4095, 4096 and 4097 bytes")
    zeros = b"0" * 24
    for start, answer in (
        (b"short-4093 decode ", WRONG_COUNT), (b"poly-1021 block ", WRONG_COUNT), (b"long-4093 body 0 63 ", WRONG_LENGTH),
        (b"long-4093 tag " + zeros + b" " + zeros + b" ", WRONG_LENGTH),
    ):
        assert len(start) % 2 == 0
        cases.raw(start + b"F" * (4096 - len(start)), answer)
        cases.raw(start + b"F" * (4097 - len(start)), TOO_LONG)
    cases.raw(start + b"F" * (4095 - len(start)), NOT_BYTES)
    cases.raw(padded(b"short-4093 blocks ", b"440", 4096), "220")
    cases.raw(padded(b"short-4093 blocks ", b"440", 4097), TOO_LONG)
    cases.raw(padded(b"short-4093 blocks ", b"441", 4096), WRONG_LENGTH)
    cases.raw(b"poly-1021 blocks ".ljust(4096, b"9"), WRONG_LENGTH)
    cases.raw(padded(b"poly-1021 body ", b"1023 63 -", 4096), "FFFF")
    cases.raw(padded(b"poly-1021 body 1023 ", b"64 -", 4096), ROUTE_TOO_LARGE)
    cases.raw(padded(b"short-4093 encode ", b"1,2", 4096), "001002")


def last_line(cases):
    cases.group("The last line lacks its newline")
    cases.raw(b"short-4093 mul 3,5 7,11", "131,68", ending=b"")


def make():
    second.check_constants()
    cases, draw = Cases(), Draw(20)
    known_answers(cases)
    constants(cases)
    zero_and_one(cases)
    random_values(cases, draw)
    basis_products(cases)
    nonresidue_at_each_place(cases)
    inverses(cases, draw)
    edges(cases, draw)
    wider_numbers(cases)
    several_out_of_range(cases)
    conversions(cases, draw)
    sameness(cases, draw)
    counts(cases)
    every_operation_refuses(cases)
    two_faults(cases)
    spaces(cases)
    not_values(cases)
    no_such_words(cases)
    numbers_of_arguments(cases)
    not_text(cases)
    carriage_returns(cases)
    passed_over(cases)
    long_lines(cases)
    known_encodings(cases)
    encodings(cases, draw)
    encode_refused(cases)
    decode_edges(cases, draw)
    decode_sizes(cases, draw)
    decode_padding(cases, draw)
    block_values(cases, draw)
    bodies(cases, draw)
    tags(cases, draw)
    tags_refused(cases, draw)
    tickets(cases, draw)
    counts_of_blocks(cases)
    not_bytes(cases)
    not_numbers(cases)
    coded_words(cases)
    long_coded_lines(cases)
    last_line(cases)
    questions = b"".join(cases.lines)
    assert list(second.answer_lines(io.BytesIO(questions))) == cases.answers
    return questions, "".join(answer + "\n" for answer in cases.answers).encode("ascii")


def main():
    questions, answers = make()
    for name, content in (("stdin", questions), ("stdout", answers)):
        path = os.path.join(DIRECTORY, name)
        if sys.argv[1:] == ["--check"]:
            with open(path, "rb") as stored:
                if stored.read() != content:
                    sys.exit("%s differs" % os.path.normpath(path))
        else:
            with open(path, "wb") as stored:
                stored.write(content)
    print("%d cases" % answers.count(b"\n"))


if __name__ == "__main__":
    if sys.argv[1:] not in ([], ["--check"]):
        sys.exit(__doc__)
    main()
