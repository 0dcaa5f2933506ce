"""knit_event_id as a caller in Python sees it: event.py LIBRARY, a shared library made from the archive."""

import ctypes
import functools
import sys

from boundary import ANSWER_WORDS, BESIDE, Lent, count, load

ID_BYTES = 25
ID_ROOM = 9
BYTES = ctypes.POINTER(ctypes.c_uint8)
LENGTHS = range(61)
FILL_BYTE = 0xA5


def written_out():
    """Each case: lesson, digest and the identifier, as a reader of document 01 writes it."""
    return [
        (0, 0, b"00000000-0000000000000000"),
        (1, 1, b"00000001-0000000000000001"),
        (15, 16, b"0000000f-0000000000000010"),
        (2**31 - 1, 2**63 - 1, b"7fffffff-7fffffffffffffff"),
        (2**31, 2**63, b"80000000-8000000000000000"),
        (2**32 - 1, 2**64 - 1, b"ffffffff-ffffffffffffffff"),
        (2**32 - 1, 0, b"ffffffff-0000000000000000"),
        (0, 2**64 - 1, b"00000000-ffffffffffffffff"),
        (0x0123_4567, 0x89AB_CDEF_0123_4567, b"01234567-89abcdef01234567"),
        (4711, 0x6FFA_4144_D88D_4A53, b"00001267-6ffa4144d88d4a53"),
    ]


def formatted():
    """Every digit at every place, by Python's own formatting."""
    numbers = [(digit << 4 * (place % 8), digit << 4 * place) for digit in range(1, 16) for place in range(16)]
    return [(lesson, digest, b"%08x-%016x" % (lesson, digest)) for lesson, digest in numbers]


def cases():
    """Each case: name, lesson, digest, identifier and how many bytes are lent."""
    edges = [(*event, length) for event in written_out() for length in LENGTHS]
    exact = [(*event, ID_BYTES) for event in formatted()]
    return [(f"{text.decode()} in {length} bytes", lesson, digest, text, length) for lesson, digest, text, length in edges + exact]


def fault_of(function, lesson, digest, text, length):
    """What is wrong with the call's result at one of eight addresses, or nothing."""
    faults = (fault_at(function, lesson, digest, text, length, offset) for offset in range(8))
    return next((fault for fault in faults if fault), None)


def fault_at(function, lesson, digest, text, length, offset):
    start = 8 * BESIDE + offset
    lent, answer = (ctypes.c_uint8 * (start + length + 8 * BESIDE))(), Lent(ANSWER_WORDS)
    ctypes.memset(lent, FILL_BYTE, len(lent))
    out = (ctypes.c_uint8 * length).from_buffer(lent, start)
    got = (function(lesson, digest, out, length, answer.words), list(answer.words))
    expected = (0, [ID_BYTES, 0, 0, 0, 0]) if length >= ID_BYTES else (ID_ROOM, [0] * ANSWER_WORDS)
    if got != expected:
        return f"expected {expected}, got {got}"
    if not answer.stayed_beside():
        return "expected the words beside the answer as they were, got others"
    written = text if length >= ID_BYTES else b""
    whole = bytes([FILL_BYTE] * start) + written + bytes([FILL_BYTE] * (len(lent) - start - len(written)))
    return None if bytes(lent) == whole else f"expected the bytes {whole}, got {bytes(lent)}"


def main():
    function = load(
        sys.argv[1],
        "knit_event_id",
        ctypes.c_uint32,
        ctypes.c_uint64,
        BYTES,
        ctypes.c_size_t,
        ctypes.c_uint64 * ANSWER_WORDS,
    )
    return count("knit_event_id", cases(), functools.partial(fault_of, function))


if __name__ == "__main__":
    sys.exit(main())
