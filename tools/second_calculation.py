#!/usr/bin/env python3
"""A second, independent calculation of the finite-field calculator's answers.

Reads calculator lines from standard input, writes one answer a line to
standard output. It shares nothing with the engine and works by another method:

* every value, also one of a tower of quadratic extensions, is a polynomial in
  one variable X over the prime field, modulo X^c - 2, where c is 1, 2 or 8;
* a product is the schoolbook product over Python's integers, then a remainder;
* an inverse is a power, a^(q^c - 2), by square-and-multiply;
* an encoding or a block is one large number, whose digits to the base of a
  power of two are the coefficients;
* a tag is a sum: each block times its own power of the key, and the pad.

A tower's list of coefficients is read into powers of X by reversing the binary
digits of each place.
"""

import re
import sys
from collections import namedtuple

LONGEST_LINE = 4096

# Numbers of the refusals. Those from ZERO_KEY on that are not used here are for
# the scripts that import this one.
OUT_OF_RANGE = 1
ZERO_HAS_NO_INVERSE = 2
WRONG_COUNT = 3
PADDING_NOT_ZERO = 4
WRONG_LENGTH = 5
BAD_PADS = 6
ZERO_KEY = 7
NUMBER_OUT_OF_RANGE = 8
TICKET_CANCELLED = 9
TICKET_RIDDEN = 10
FALSE_TAG = 11
ALL_DRAWN = 13
TAPE_TORN = 15
BAD_RECORD = 16
ROUTE_OUT_OF_RANGE = 17

# Numbers of the parts of the input that a refusal names.
PART_CALL = 0
PART_KEY = 1
PART_PAD = 2
PART_TAG = 3
PART_TAPE = 4

# A body is a number and a route in two bytes, then the text.
LARGEST_NUMBER = 1023
LARGEST_ROUTE = 63
HEAD_SIZE = 2
LONGEST_TEXT = 438
SHORTEST_BODY = HEAD_SIZE
LONGEST_BODY = HEAD_SIZE + LONGEST_TEXT


class Refused(Exception):
    """A well-formed line whose values the arithmetic does not admit."""

    def __init__(self, number, part=PART_CALL, place=0):
        super().__init__(number, part, place)
        self.number, self.part, self.place = number, part, place


class NotUnderstood(Exception):
    """A line that is not a command of the language."""


# --- Forms -------------------------------------------------------------------

# family: the word before the dash; q: the modulus; c: the count of
# coefficients; tower: whether the notation lists coefficients in tower order.
Form = namedtuple("Form", "family q c tower")

FAMILIES = (("prime", 1, True), ("short", 2, True), ("long", 8, True), ("poly", 8, False))
ROOT_OF_MINUS_ONE = {4093: 1059, 1021: 374}
FORMS = {
    "%s-%d" % (family, q): Form(family, q, c, tower)
    for q in ROOT_OF_MINUS_ONE
    for family, c, tower in FAMILIES
}
CONVERTED_FAMILY = {"long": "poly", "poly": "long"}


def power_of_place(form, place):
    """The power of X whose coefficient stands at this place of the notation."""
    if not form.tower:
        return place
    digits = form.c.bit_length() - 1
    power = 0
    for _ in range(digits):
        power = 2 * power + place % 2
        place //= 2
    return power


def by_power(form, listed):
    """Reorder a list in the form's notation into a list by power of X."""
    powers = [None] * form.c
    for place, number in enumerate(listed):
        powers[power_of_place(form, place)] = number
    return powers


def by_place(form, powers):
    """Reorder a list by power of X into the form's notation."""
    return [powers[power_of_place(form, place)] for place in range(form.c)]


# --- Polynomials modulo X^c - 2 over the prime field -------------------------
# A polynomial is a list of c numbers from 0 to below q, by power of X.


def constant(form, number):
    return [number % form.q] + [0] * (form.c - 1)


def remainder(form, product):
    """The remainder of a polynomial of any degree modulo X^c - 2 and q."""
    rest = list(product)
    while len(rest) > form.c:
        leading = rest.pop()
        rest[len(rest) - form.c] += 2 * leading
    return [number % form.q for number in rest]


def add(form, a, b):
    return [(x + y) % form.q for x, y in zip(a, b)]


def negative(form, a):
    return [-x % form.q for x in a]


def multiply(form, a, b):
    product = [0] * (len(a) + len(b) - 1)
    for i, x in enumerate(a):
        for j, y in enumerate(b):
            product[i + j] += x * y
    return remainder(form, product)


def raise_to(form, a, exponent):
    """Square-and-multiply from the highest binary digit of the exponent."""
    result = constant(form, 1)
    for digit in bin(exponent)[2:]:
        result = multiply(form, result, result)
        if digit == "1":
            result = multiply(form, result, a)
    return result


def inverse(form, a):
    if not any(a):
        raise Refused(ZERO_HAS_NO_INVERSE)
    result = raise_to(form, a, form.q**form.c - 2)
    assert multiply(form, result, a) == constant(form, 1)
    return result


def nonresidue(form):
    """X itself; where c is 1 its remainder is the number 2."""
    return remainder(form, [0, 1] + [0] * (form.c - 2))


def root_of_minus_one(form):
    return constant(form, ROOT_OF_MINUS_ONE[form.q])


def check_constants():
    """X^c - 2 is irreducible for c a power of two when q is 1 modulo 4 and 2
    is a non-residue; and the stored roots are roots."""
    for form in FORMS.values():
        assert form.q % 4 == 1 and all(form.q % d for d in range(2, 64))
        prime = Form("prime", form.q, 1, True)
        assert raise_to(prime, [2], (form.q - 1) // 2) == [form.q - 1]
        root = root_of_minus_one(form)
        assert multiply(form, root, root) == constant(form, -1)


# --- Encodings ---------------------------------------------------------------
# An encoding is one number, most significant byte first. Its digits to the base
# 2^w, where w is the width of the modulus, are the coefficients from power 0 up,
# most significant first; the padding bits stand below them.


def width(form):
    """The count of binary digits of the modulus."""
    return form.q.bit_length()


def encoded_size(form):
    """The count of bytes of an encoding."""
    return -(-form.c * width(form) // 8)


def padding_bits(form):
    return 8 * encoded_size(form) - form.c * width(form)


def digits_to_base(number, base, count):
    """This many digits of the number, the most significant first."""
    digits = []
    for _ in range(count):
        number, digit = divmod(number, base)
        digits.append(digit)
    assert number == 0
    return digits[::-1]


def encode(form, powers):
    number = sum(each * 2 ** (width(form) * (form.c - 1 - power)) for power, each in enumerate(powers))
    encoding = (number << padding_bits(form)).to_bytes(encoded_size(form), "big")
    assert decode(form, encoding, PART_CALL) == powers
    return encoding


def decode(form, encoding, part):
    if len(encoding) != encoded_size(form):
        raise Refused(WRONG_COUNT, part)
    number, padding = divmod(int.from_bytes(encoding, "big"), 2 ** padding_bits(form))
    powers = digits_to_base(number, 2 ** width(form), form.c)
    for power, each in enumerate(powers):
        if each >= form.q:
            raise Refused(OUT_OF_RANGE, part, power)
    if padding:
        raise Refused(PADDING_NOT_ZERO, part)
    return powers


# --- Blocks, bodies and tags -------------------------------------------------
# A block is one number as well. Its digits to the base 2^(w - 1) are the
# coefficients, so that each is below the modulus.


def block_size(form):
    """The largest count of bytes of a block."""
    return form.c * (width(form) - 1) // 8


def value_of_block(form, block):
    """The value of a block of at most its largest size, by power of X."""
    missing = form.c * (width(form) - 1) - 8 * len(block)
    number = int.from_bytes(block, "big") << missing
    return digits_to_base(number, 2 ** (width(form) - 1), form.c)


def count_blocks(form, length):
    return -(-length // block_size(form))


def make_body(number, route, text):
    return (number * (LARGEST_ROUTE + 1) + route).to_bytes(HEAD_SIZE, "big") + text


def values_of_body(form, body):
    """The values of the blocks of a body and, last, of its length block."""
    size = block_size(form)
    blocks = [body[start : start + size] for start in range(0, len(body), size)]
    assert len(blocks) == count_blocks(form, len(body))
    blocks.append(len(body).to_bytes(2, "big"))
    return [value_of_block(form, block) for block in blocks]


def nested_sum(form, values, key):
    """The same sum as in the tag, by Horner's rule; only to check that one."""
    result = constant(form, 0)
    for value in values:
        result = multiply(form, add(form, result, value), key)
    return result


def tag(form, key, pad, body):
    """The pad and each value times its power of the key; the last power is 1."""
    values = values_of_body(form, body)
    products = [
        multiply(form, value, raise_to(form, key, len(values) - place))
        for place, value in enumerate(values)
    ]
    result = [sum(column) % form.q for column in zip(pad, *products)]
    assert result == add(form, nested_sum(form, values, key), pad)
    return result


MOST_PADS = 1024


def decode_key(form, encoding):
    """The key of an issuer or a validator, which must not be zero."""
    key = decode(form, encoding, PART_KEY)
    if not any(key):
        raise Refused(ZERO_KEY, PART_KEY)
    return key


def count_pads(form, pads):
    how_many, left = divmod(len(pads), encoded_size(form))
    if left or not 1 <= how_many <= MOST_PADS:
        raise Refused(BAD_PADS)
    return how_many


def pad_of(form, pads, number):
    """The pad of a number that is below the count of pads."""
    size = encoded_size(form)
    return decode(form, pads[number * size :][:size], PART_PAD)


def open_head(body):
    """The number and the route in the first two bytes of a body."""
    return divmod(int.from_bytes(body[:HEAD_SIZE], "big"), LARGEST_ROUTE + 1)


def open_ticket(form, key, pads, ticket):
    """The number, the route and the text of a ticket whose tag is right."""
    size = encoded_size(form)
    if not size + SHORTEST_BODY <= len(ticket) <= size + LONGEST_BODY:
        raise Refused(WRONG_LENGTH)
    how_many = count_pads(form, pads)
    body, encoded_tag = ticket[:-size], ticket[-size:]
    number, route = open_head(body)
    if number >= how_many:
        raise Refused(NUMBER_OUT_OF_RANGE)
    pad = pad_of(form, pads, number)
    # The difference between the named tag and the right one, which must vanish.
    named = decode(form, encoded_tag, PART_TAG)
    if any(add(form, named, negative(form, tag(form, key, pad, body)))):
        raise Refused(FALSE_TAG)
    return number, route, body[HEAD_SIZE:]


# --- Notation ----------------------------------------------------------------

NUMBERS = re.compile(r"[0-9]+(?:,[0-9]+)*")
NUMBER = re.compile(r"[0-9]+")
BYTES = re.compile(r"-|(?:[0-9A-Fa-f][0-9A-Fa-f])+")


def understand_numbers(word):
    if not NUMBERS.fullmatch(word):
        raise NotUnderstood("not a value")
    return [int(digits) for digits in word.split(",")]


def build_value(form, numbers):
    if len(numbers) != form.c:
        raise Refused(WRONG_COUNT)
    powers = by_power(form, numbers)
    for power, number in enumerate(powers):
        if number >= form.q:
            raise Refused(OUT_OF_RANGE, PART_CALL, power)
    return powers


def understand_number(word):
    if not NUMBER.fullmatch(word):
        raise NotUnderstood("not a number")
    return int(word)


def understand_bytes(word):
    if not BYTES.fullmatch(word):
        raise NotUnderstood("not bytes")
    return b"" if word == "-" else bytes.fromhex(word)


def build_block(form, block):
    if len(block) > block_size(form):
        raise Refused(WRONG_COUNT)
    return block


def build_number_of_body(form, number):
    if number > LARGEST_NUMBER:
        raise Refused(NUMBER_OUT_OF_RANGE)
    return number


def build_route(form, route):
    if route > LARGEST_ROUTE:
        raise Refused(ROUTE_OUT_OF_RANGE)
    return route


def build_text(form, text):
    if len(text) > LONGEST_TEXT:
        raise Refused(WRONG_LENGTH)
    return text


def build_length(form, length):
    if not SHORTEST_BODY <= length <= LONGEST_BODY:
        raise Refused(WRONG_LENGTH)
    return length


def build_body(form, body):
    build_length(form, len(body))
    return body


def write_bytes(content):
    return content.hex().upper() or "-"


def write_numbers(numbers):
    return ",".join(str(number) for number in numbers)


def write_value(form, powers):
    return write_numbers(by_place(form, powers))


def write_ticket(number, route, text):
    return "%d %d %s" % (number, route, write_bytes(text))


def write_refusal(refusal):
    return "refused %d %d %d" % (refusal.number, refusal.part, refusal.place)


def write_yes_or_no(truth):
    return "yes" if truth else "no"


def write_converted(form, powers):
    other = FORMS["%s-%d" % (CONVERTED_FAMILY[form.family], form.q)]
    return write_value(other, powers)


# --- The table of operations -------------------------------------------------

# How the words of one kind of argument are read: understand takes the word and
# raises NotUnderstood, build takes the form and what was understood and raises
# Refused.
ArgumentKind = namedtuple("ArgumentKind", "understand build")
VALUE = ArgumentKind(understand_numbers, build_value)
ENCODING = ArgumentKind(understand_bytes, lambda form, content: decode(form, content, PART_CALL))
KEY = ArgumentKind(understand_bytes, lambda form, content: decode(form, content, PART_KEY))
PAD = ArgumentKind(understand_bytes, lambda form, content: decode(form, content, PART_PAD))
BLOCK = ArgumentKind(understand_bytes, build_block)
NUMBER_OF_BODY = ArgumentKind(understand_number, build_number_of_body)
ROUTE = ArgumentKind(understand_number, build_route)
TEXT = ArgumentKind(understand_bytes, build_text)
BODY = ArgumentKind(understand_bytes, build_body)
LENGTH = ArgumentKind(understand_number, build_length)
# Judged together, after all arguments before them.
PADS = TICKET = ArgumentKind(understand_bytes, lambda form, content: content)

# arguments: the kinds of the arguments; answer: from the form and the built
# arguments to the text of the answer; families: the forms that have it.
Operation = namedtuple("Operation", "arguments answer families")

ALL_FAMILIES = frozenset(family for family, _, _ in FAMILIES)
CODED_FAMILIES = ALL_FAMILIES - {"prime"}


def value_operation(calculate, *arguments):
    """An operation on all forms whose answer is a value of the same form."""
    return Operation(
        arguments, lambda form, *built: write_value(form, calculate(form, *built)), ALL_FAMILIES
    )


def coded_operation(answer, *arguments):
    """An operation on encodings, blocks or bodies; the prime forms lack it."""
    return Operation(arguments, answer, CODED_FAMILIES)


OPERATIONS = {
    "add": value_operation(add, VALUE, VALUE),
    "neg": value_operation(negative, VALUE),
    "mul": value_operation(multiply, VALUE, VALUE),
    "square": value_operation(lambda form, a: multiply(form, a, a), VALUE),
    "inverse": value_operation(inverse, VALUE),
    "nonresidue": value_operation(nonresidue),
    "by-nonresidue": value_operation(lambda form, a: multiply(form, a, nonresidue(form)), VALUE),
    "sqrt-minus-one": value_operation(root_of_minus_one),
    "same": Operation(
        (VALUE, VALUE), lambda form, a, b: write_yes_or_no(a == b), ALL_FAMILIES
    ),
    "convert": Operation((VALUE,), write_converted, frozenset(CONVERTED_FAMILY)),
    "encode": coded_operation(lambda form, a: write_bytes(encode(form, a)), VALUE),
    "decode": coded_operation(write_value, ENCODING),
    # By power of X, also where the form's own order is another.
    "block": coded_operation(lambda form, block: write_numbers(value_of_block(form, block)), BLOCK),
    "body": coded_operation(
        lambda form, *built: write_bytes(make_body(*built)), NUMBER_OF_BODY, ROUTE, TEXT
    ),
    "tag": coded_operation(
        lambda form, *built: write_bytes(encode(form, tag(form, *built))), KEY, PAD, BODY
    ),
    "ticket": coded_operation(
        lambda form, *built: write_ticket(*open_ticket(form, *built)), KEY, PADS, TICKET
    ),
    "blocks": coded_operation(lambda form, length: str(count_blocks(form, length)), LENGTH),
}


# --- Lines -------------------------------------------------------------------


def without_ending(line):
    """The line without its newline and without one final carriage return."""
    if line.endswith(b"\n"):
        line = line[:-1]
    if line.endswith(b"\r"):
        line = line[:-1]
    return line


def is_passed_over(line):
    return line == b"" or line.startswith(b"#")


def understand_text(line, longest=LONGEST_LINE):
    if len(line) > longest:
        raise NotUnderstood("line too long")
    if any(byte < 32 or byte > 126 for byte in line):
        raise NotUnderstood("not text")
    return line.decode("ascii")


def understand_command(text):
    """The form, the operation and the words of the arguments."""
    words = text.split(" ")
    form = FORMS.get(words[0])
    if form is None:
        raise NotUnderstood("no such form")
    operation = OPERATIONS.get(words[1]) if len(words) > 1 else None
    if operation is None or form.family not in operation.families:
        raise NotUnderstood("no such operation")
    if len(words) - 2 != len(operation.arguments):
        raise NotUnderstood("wrong number of arguments")
    return form, operation, words[2:]


def answer_command(text):
    form, operation, words = understand_command(text)
    understood = [kind.understand(word) for kind, word in zip(operation.arguments, words)]
    built = [kind.build(form, each) for kind, each in zip(operation.arguments, understood)]
    return operation.answer(form, *built)


def answer_line(line):
    """The answer to one line of bytes, or None where the line is passed over."""
    line = without_ending(line)
    if is_passed_over(line):
        return None
    try:
        return answer_command(understand_text(line))
    except NotUnderstood as reason:
        return "? %s" % reason
    except Refused as refusal:
        return write_refusal(refusal)


def answer_lines(lines):
    """The answers to lines of bytes, such as a file opened for bytes gives."""
    for line in lines:
        answer = answer_line(line)
        if answer is not None:
            yield answer


def main():
    check_constants()
    for answer in answer_lines(sys.stdin.buffer):
        sys.stdout.buffer.write(answer.encode("ascii") + b"\n")
    sys.stdout.buffer.flush()


if __name__ == "__main__":
    main()
