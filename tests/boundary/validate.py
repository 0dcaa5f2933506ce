"""knit_validate as a caller in Python sees it: validate.py LIBRARY, a shared library made from the archive."""

import ctypes
import functools
import sys

from boundary import ANSWER_WORDS, DOCUMENT_01, Lent, call, count, image, jump, load, nop, own_copy, patched, ret

SAFE = (256, 256, 64, 8192, 1_000_000)

GOOD = (1, [ret(0)])


def cases():
    """Each case: name, image, limits, expected number and the answer's values; the words after these must be 0."""
    two = image(0, (1, [nop(), ret(0)]), (1, [nop(), ret(0)]))
    highest = (16_384, 4_096, 1_024, 1_000_000, 1_000_000_000)
    one_function = (256, 1, 64, 8_192, 1_000_000)
    no_limits = (0, 0, 0, 0, 0)
    return [
        ("document 01's image", DOCUMENT_01, SAFE, 0, []),
        ("the highest limits", DOCUMENT_01, highest, 0, []),
        ("no bytes", b"", SAFE, 1, []),
        ("no bytes, no limits", b"", no_limits, 1, []),
        ("23 bytes", DOCUMENT_01[:23], SAFE, 1, []),
        ("24 bytes", DOCUMENT_01[:24], SAFE, 3, []),
        ("one byte less", DOCUMENT_01[:-1], SAFE, 3, []),
        ("one byte more", DOCUMENT_01 + b"\0", SAFE, 3, []),
        ("form 2", patched(two, 0, b"\2"), SAFE, 2, []),
        ("total length too high", patched(two, 20, b"\x69"), SAFE, 3, []),
        ("function 1, zero field", patched(two, 46, b"\1"), SAFE, 4, [1]),
        ("only the sum fails", patched(two, 52, b"\1"), SAFE, 4, [2]),
        ("opcode 56 in the last instruction", patched(two, 92, b"\x38"), SAFE, 5, [3]),
        ("an image fault before the limits", patched(two, 92, b"\x38"), no_limits, 5, [3]),
        ("no registers", two, (0, 256, 64, 8_192, 1_000_000), 10, [0, 1]),
        ("fuel above 2^32", two, (256, 256, 64, 8_192, 1 << 32), 10, [1, 5]),
        ("no function", image(0), SAFE, 11, []),
        ("no function before the entry", image(9), SAFE, 11, []),
        ("entry past the functions", image(2, GOOD, GOOD), SAFE, 12, [2]),
        ("two functions where one may be", image(0, GOOD, GOOD), one_function, 13, [2, 1]),
        ("too many functions before the entry", image(9, GOOD, GOOD), one_function, 13, [2, 1]),
        ("256 registers", image(0, (256, [ret(255)])), SAFE, 0, []),
        ("257 registers", image(0, (257, [ret(0)])), SAFE, 14, [0, 257, 256]),
        ("8,192 instructions", image(0, (1, [ret(0)] * 8_192)), SAFE, 0, []),
        ("8,193 instructions", image(0, (1, [ret(0)] * 8_193)), SAFE, 15, [0, 8_193, 8_192]),
        ("a lone Ret, no registers", image(0, (0, [ret(0)])), SAFE, 16, [0, 0]),
        ("register 65,535", image(0, GOOD, (1, [ret(65_535)])), SAFE, 16, [1, 65_535]),
        ("a jump to 2^32 - 1", image(0, (1, [jump(0xFFFF_FFFF), ret(0)])), SAFE, 17, [0, 0xFFFF_FFFF]),
        ("a Call past the functions", image(0, (1, [call(0, 1, 0, 0), ret(0)])), SAFE, 18, [0, 1]),
        ("a lone Nop, no registers", image(0, (0, [nop()])), SAFE, 19, [0]),
        ("a Call of itself, arg_base 1", image(0, (1, [call(0, 0, 1, 0), ret(0)])), SAFE, 0, []),
        ("a Call of itself, arg_base 2", image(0, (1, [call(0, 0, 2, 0), ret(0)])), SAFE, 20, [0, 2, 0]),
    ]


def fault_of(function, data, limits, number, values):
    """What is wrong with the call's result, or nothing."""
    lent = Lent(ANSWER_WORDS)
    before = own_copy(data)
    got = (function(data, len(data), *limits, lent.words), list(lent.words))
    expected = (number, values + [0] * (ANSWER_WORDS - len(values)))
    if got != expected:
        return f"expected {expected}, got {got}"
    if not lent.stayed_beside():
        return "expected the words beside the answer as they were, got others"
    if data != before:
        return "expected the image as it was, got other bytes"
    return None


def main():
    function = load(
        sys.argv[1],
        "knit_validate",
        ctypes.c_char_p,
        ctypes.c_size_t,
        ctypes.c_uint16,
        ctypes.c_uint16,
        ctypes.c_uint16,
        ctypes.c_uint32,
        ctypes.c_uint64,
        ctypes.c_uint64 * ANSWER_WORDS,
    )
    return count("knit_validate", cases(), functools.partial(fault_of, function))


if __name__ == "__main__":
    sys.exit(main())
