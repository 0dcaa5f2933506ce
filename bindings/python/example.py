"""A publisher's night in small: example.py IMAGE LESSON checks the image in a file under the safe profile, runs it, and prints
how it ended, what it gave back, the fuel it used and the identifier of the lesson's event. The variable KNIT_LIBRARY names the
engine's library.

The exit status is 0 if it ran, also if it trapped; 1 if the image was refused; 2 for wrong use.
"""

import pathlib
import sys

from knitcauldron import Library, Limits, NoLibrary, Profile, Refused, Room


class WrongUse(Exception):
    pass


def read_arguments(arguments):
    if len(arguments) != 2:
        raise WrongUse("usage: example.py IMAGE LESSON")
    path, lesson = arguments
    # No number of 32 bits has more than ten digits, and int() refuses far longer ones in another way.
    if not (lesson.isascii() and lesson.isdigit() and len(lesson) <= 10 and int(lesson) < 2**32):
        raise WrongUse("a lesson is a number from 0 to 4294967295")
    return pathlib.Path(path).read_bytes(), int(lesson)


def execute(knit, image):
    profile, limits = Profile(), Limits()
    knit.validate(image, profile)
    # An admitted program has no function with more registers than the profile allows, so this room is always enough.
    return knit.execute(image, limits, Room.enough(limits, profile.max_registers))


def main():
    try:
        image, lesson = read_arguments(sys.argv[1:])
        knit = Library()
        run = execute(knit, image)
    except Refused as refusal:
        print(f"refused {refusal.number}, {refusal.name}: {refusal}", file=sys.stderr)
        return 1
    except (WrongUse, NoLibrary, OSError) as why:
        print(why, file=sys.stderr)
        return 2
    print(f"status: {run.status}")
    print(f"value: {run.value}")
    print(f"fuel used: {run.fuel_used}")
    print(f"event: {knit.event_id(lesson, run.digest)}")
    return 0


if __name__ == "__main__":
    sys.exit(main())
