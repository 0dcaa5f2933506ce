"""knit_execute and knit_digest as a caller in Python sees them: execute.py LIBRARY, a shared library made from the archive.

Answers and the lent memory after each call are written out by hand from document 01.
"""

import ctypes
import functools
import sys

from boundary import ANSWER_WORDS, DOCUMENT_01, FILL, Lent, call, count, image, instr, jump, load, nop, own_copy, patched, ret

WORDS = ctypes.POINTER(ctypes.c_uint64)
UNIT = 0
RETURNED, INVALID_PC, INVALID_REGISTER, TYPE_MISMATCH, DIVISION_BY_ZERO, INTEGER_OVERFLOW = range(6)
FUEL_EXCEEDED, CALL_DEPTH_EXCEEDED, INVALID_FUNCTION, ASSERT_FAILED, EXPLICIT_TRAP = range(6, 11)
ROOMY = (9, 64, 256, 256)
ENTRY_AT = [[0, 0, 0, 0], [0, 1, 0, 0], [0, 2, 0, 0], [0, 3, 0, 0]]


def word(kind, payload):
    return kind << 32 | payload & 0xFFFF_FFFF


boolean, i32, u32, fx = (functools.partial(word, kind) for kind in (2, 3, 4, 5))


def load_bool(dst, value):
    return instr(5, a=dst, small=value)


def load_i32(dst, value):
    return instr(6, a=dst, w=value)


def load_u32(dst, value):
    return instr(7, a=dst, w=value)


def three(op, dst, lhs, rhs):
    return instr(op, a=dst, b=lhs, c=rhs)


def digest(status, kind, payload, fuel_used):
    value = 0xCBF2_9CE4_8422_2325
    for part in (status, kind, payload, 0, fuel_used):
        value = (value ^ part) * (2**44 + 435) % 2**64
    return value


def done(status, value, fuel_used):
    """The number and the five words of a run that ended with a register's word as its value."""
    kind, payload = divmod(value, 2**32)
    return 0, [status, kind, payload, fuel_used, digest(status, kind, payload, fuel_used)]


def refused(number, value=0):
    return number, [value, 0, 0, 0, 0]


def ends():
    """Each case: name, image, (fuel, depth, words for frames, words for registers), answer, records and registers afterwards."""
    empty, trap = image(0, (2, [])), image(0, (1, [nop(), instr(1)]))
    loop = image(0, (0, [nop(), jump(0)]))
    return [
        ("document 01's image", DOCUMENT_01, (1_000_000, 64, 256, 2048), done(0, i32(-1), 2), [ENTRY_AT[1]], [i32(-1)]),
        ("the least room", DOCUMENT_01, (2, 0, 4, 1), done(0, i32(-1), 2), [ENTRY_AT[1]], [i32(-1)]),
        ("fuel 2^32", DOCUMENT_01, (2**32, 64, 4, 1), done(0, i32(-1), 2), [ENTRY_AT[1]], [i32(-1)]),
        ("fuel 1", DOCUMENT_01, (1, 64, 4, 1), done(FUEL_EXCEEDED, UNIT, 1), [ENTRY_AT[1]], [i32(-1)]),
        ("fuel 0, place inside", DOCUMENT_01, (0, 64, 4, 1), done(FUEL_EXCEEDED, UNIT, 0), [ENTRY_AT[0]], [UNIT]),
        ("fuel 0, place at the length", empty, (0, 64, 4, 2), done(INVALID_PC, UNIT, 0), [ENTRY_AT[0]], [UNIT, UNIT]),
        ("the whole limit", loop, (10_001, 64, 4, 0), done(FUEL_EXCEEDED, UNIT, 10_001), [ENTRY_AT[1]], []),
        ("an explicit trap", trap, ROOMY, done(EXPLICIT_TRAP, UNIT, 2), [ENTRY_AT[1]], [UNIT]),
    ]


def refusals():
    two = image(0, (1, [nop(), ret(0)]), (1, [nop(), ret(0)]))
    missing, three_registers = image(1, (1, [ret(0)])), image(0, (3, [ret(0)]))
    itself = image(0, (2, [load_i32(0, 5), call(1, 0, 0, 1)]))
    return [
        ("no bytes", b"", ROOMY, refused(1), [], []),
        ("23 bytes", DOCUMENT_01[:23], ROOMY, refused(1), [], []),
        ("form 2", patched(two, 0, b"\2"), ROOMY, refused(2), [], []),
        ("one byte less", DOCUMENT_01[:-1], ROOMY, refused(3), [], []),
        ("function 1, zero field", patched(two, 46, b"\1"), ROOMY, refused(4, 1), [], []),
        ("opcode 56 in the last instruction", patched(two, 92, b"\x38"), ROOMY, refused(5, 3), [], []),
        ("an image fault, no room", patched(two, 92, b"\x38"), (0, 0, 0, 0), refused(5, 3), [], []),
        ("an entry that doesn't exist", missing, ROOMY, done(INVALID_FUNCTION, UNIT, 0), [], []),
        ("an entry that doesn't exist, no room", missing, (0, 0, 0, 0), done(INVALID_FUNCTION, UNIT, 0), [], []),
        ("no function", image(0), (9, 64, 0, 0), done(INVALID_FUNCTION, UNIT, 0), [], []),
        ("no record", three_registers, (9, 64, 3, 256), refused(6), [], []),
        ("too few registers", three_registers, (9, 64, 4, 2), refused(7), [], []),
        ("neither", three_registers, (9, 64, 0, 0), refused(6), [], []),
        ("a Call with no record left", itself, (9, 64, 7, 256), refused(6, 2), [ENTRY_AT[1]], [i32(5), UNIT]),
        ("a Call with too few registers", itself, (9, 64, 8, 3), refused(7, 2), [ENTRY_AT[1]], [i32(5), UNIT]),
    ]


def calls():
    nine = image(0, (1, [call(0, 9, 0, 0)]))
    arguments = image(0, (4, [load_i32(1, 7), load_bool(2, 1), call(3, 1, 1, 2), ret(3)]), (4, [ret(0)]))
    bad_dst = image(0, (1, [call(9, 1, 0, 0), ret(0)]), (1, [load_u32(0, 2), ret(0)]))
    past = image(0, (2, [call(0, 1, 1, 2)]), (9, [ret(0)]))
    after = [UNIT, i32(7), boolean(1), i32(7), i32(7), boolean(1), UNIT, UNIT]
    return [
        ("depth 0, a Call to function 9 of 1", nine, (5, 0, 256, 256), done(CALL_DEPTH_EXCEEDED, UNIT, 1), [ENTRY_AT[0]], [UNIT]),
        ("a Call to function 9 of 1", nine, ROOMY, done(INVALID_FUNCTION, UNIT, 1), [ENTRY_AT[0]], [UNIT]),
        ("arguments first, Unit after", arguments, (9, 2, 8, 8), done(0, i32(7), 5), [ENTRY_AT[3], [1, 0, 3, 4]], after),
        ("a bad dst at Ret", bad_dst, ROOMY, done(INVALID_REGISTER, UNIT, 3), [ENTRY_AT[1], [1, 1, 9, 1]], [UNIT, u32(2)]),
        ("arguments past the registers", past, ROOMY, done(INVALID_REGISTER, UNIT, 1), [ENTRY_AT[0]], [UNIT, UNIT]),
    ]


def operations():
    def two_loads(op, first, second):
        return image(0, (2, [first, second, three(op, 0, 0, 1), ret(0)]))

    divide = two_loads(26, load_i32(0, 1), load_i32(1, 0))
    overflow = two_loads(23, load_i32(0, 2**31 - 1), load_i32(1, 1))
    mismatch = two_loads(23, load_i32(0, 1), load_u32(1, 1))
    multiply = two_loads(43, instr(8, a=0, w=-1), instr(8, a=1, w=1))
    taken = image(0, (1, [load_bool(0, 0), instr(53, a=0, w=3), instr(1), ret(0)]))
    asserts = image(0, (1, [load_bool(0, 0), instr(2, a=0)]))
    far = image(0, (1, [jump(2**32 - 1)]))
    return [
        ("a division by 0", divide, ROOMY, done(DIVISION_BY_ZERO, UNIT, 3), [ENTRY_AT[2]], [i32(1), i32(0)]),
        ("a sum of 2^31", overflow, ROOMY, done(INTEGER_OVERFLOW, UNIT, 3), [ENTRY_AT[2]], [i32(2**31 - 1), i32(1)]),
        ("an I32 and a U32", mismatch, ROOMY, done(TYPE_MISMATCH, UNIT, 3), [ENTRY_AT[2]], [i32(1), u32(1)]),
        ("FxMul raw -1, 1", multiply, ROOMY, done(0, fx(-1), 4), [ENTRY_AT[3]], [fx(-1), fx(1)]),
        ("a jump that is taken", taken, ROOMY, done(0, boolean(0), 3), [ENTRY_AT[3]], [boolean(0)]),
        ("an Assert that fails", asserts, ROOMY, done(ASSERT_FAILED, UNIT, 2), [ENTRY_AT[1]], [boolean(0)]),
        ("a jump to 2^32 - 1", far, ROOMY, done(INVALID_PC, UNIT, 1), [[0, 2**32 - 1, 0, 0]], [UNIT]),
    ]


def memory_fault(what, lent, written):
    """What is wrong with lent words whose first ones must be `written` and all others as they were."""
    expected = written + [FILL] * (len(lent.words) - len(written))
    if list(lent.words) != expected:
        return f"expected the {what} {expected}, got {list(lent.words)}"
    return None if lent.stayed_beside() else f"expected the words beside the {what} as they were, got others"


def fault_of_run(function, data, terms, answer, records, registers):
    """What is wrong with the call's result, or nothing."""
    fuel, depth, frames_len, registers_len = terms
    lent_frames, lent_registers, lent_answer = Lent(frames_len), Lent(registers_len), Lent(ANSWER_WORDS)
    before = own_copy(data)
    number = function(
        data, len(data), fuel, depth, lent_frames.words, frames_len, lent_registers.words, registers_len, lent_answer.words
    )
    if (number, list(lent_answer.words)) != answer:
        return f"expected {answer}, got {(number, list(lent_answer.words))}"
    if not lent_answer.stayed_beside():
        return "expected the words beside the answer as they were, got others"
    if data != before:
        return "expected the image as it was, got other bytes"
    return memory_fault("frames", lent_frames, sum(records, [])) or memory_fault("registers", lent_registers, registers)


def digests():
    """Each case: name, the four words, the digest; the fixed ones were worked out apart from this program."""
    top = 2**64 - 1
    fixed = [
        ("the digest of zeros", (0, 0, 0, 0), 0x4495_16D9_252B_E94F),
        ("the digest of document 01's run", (0, 3, 4294967295, 2), 0x6FFA_4144_D88D_4A53),
        ("the digest of 1, 2, 3, 4", (1, 2, 3, 4), 0xEE65_C8BF_4F60_002F),
        ("the digest of the highest words", (top, top, top, top), 0x9A6F_54FB_512D_9419),
    ]
    single = [tuple(top if i == at else 0 for i in range(4)) for at in range(4)]
    return fixed + [(f"the digest of {words}", words, digest(*words)) for words in single]


def fault_of_digest(function, words, expected):
    got = function(*words)
    return None if got == expected else f"expected {expected:x}, got {got:x}"


def main():
    execute = load(
        sys.argv[1],
        "knit_execute",
        ctypes.c_char_p,
        ctypes.c_size_t,
        ctypes.c_uint64,
        ctypes.c_uint16,
        WORDS,
        ctypes.c_size_t,
        WORDS,
        ctypes.c_size_t,
        ctypes.c_uint64 * ANSWER_WORDS,
    )
    runs = ends() + refusals() + calls() + operations()
    status = count("knit_execute", runs, functools.partial(fault_of_run, execute))
    knit_digest = load(sys.argv[1], "knit_digest", *[ctypes.c_uint64] * 4)
    return status | count("knit_digest", digests(), functools.partial(fault_of_digest, knit_digest))


if __name__ == "__main__":
    sys.exit(main())
