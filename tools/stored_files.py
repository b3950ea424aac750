"""Writing and checking the stored inputs and answers of a program."""

import os
import sys

ROOT = os.path.dirname(os.path.dirname(os.path.abspath(__file__)))


def write(path, content):
    with open(path, "wb") as stored:
        stored.write(content)


def is_stored(path, content):
    """Whether the file is there with exactly this content."""
    if not os.path.exists(path):
        return False
    with open(path, "rb") as stored:
        return stored.read() == content


def write_stored(files):
    for path, content in files.items():
        write(os.path.join(ROOT, path), content)


def check_stored(files):
    different = [path for path, content in files.items() if not is_stored(os.path.join(ROOT, path), content)]
    if different:
        sys.exit("different or missing: " + ", ".join(different))


def write_small(folder, small, ending):
    for name, (content, answers) in small.items():
        write(os.path.join(folder, name + ending), content)
        write(os.path.join(folder, name + ".expected"), answers)


def run(arguments, usage, make_stored, make_small, ending):
    """Writes the stored files, checks them, or writes the small inputs into a folder."""
    if arguments == []:
        write_stored(make_stored())
    elif arguments == ["--check"]:
        # The small inputs are made too, to check the answers they state.
        print("%d small inputs" % len(make_small()))
        check_stored(make_stored())
    elif len(arguments) == 1 and os.path.isdir(arguments[0]):
        small = make_small()
        write_small(arguments[0], small, ending)
        print("%d small inputs" % len(small))
    else:
        sys.exit(usage)
