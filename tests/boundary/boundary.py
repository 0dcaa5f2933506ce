"""What the boundary's tests in Python share: images made by hand, lent words, and the count of cases.

Images are passed as bytes objects, without a copy, as a publisher's script would do it.
"""

import ctypes
import struct

ANSWER_WORDS = 5
BESIDE = 2
FILL = 0xA5A5_A5A5_A5A5_A5A5

DOCUMENT_01 = bytes.fromhex(
    "01 00 00 00 01 00 00 00 02 00 00 00 18 00 00 00 28 00 00 00 40 00 00 00 07 00 00 00 01 00 00 00"
    "00 00 00 00 02 00 00 00 06 00 00 00 00 00 00 00 ff ff ff ff 37 00 00 00 00 00 00 00 00 00 00 00"
)


def load(path, name, *argtypes):
    """A function of the library, with its types said: Python would otherwise pass every number as a C int."""
    function = getattr(ctypes.CDLL(path), name)
    function.restype = ctypes.c_uint64
    function.argtypes = argtypes
    return function


def instr(op, small=0, a=0, b=0, c=0, w=0):
    return struct.pack("<BBHHHI", op, small, a, b, c, w & 0xFFFF_FFFF)


def nop():
    return instr(0)


def jump(target):
    return instr(51, w=target)


def call(dst, function, base, count):
    return instr(54, a=dst, b=function, c=base, w=count)


def ret(src):
    return instr(55, a=src)


def image(entry, *functions):
    """An image of functions, each given as (registers, [instructions])."""
    table, code, first = b"", b"", 0
    for regs, body in functions:
        table += struct.pack("<IHHII", 1000 + first, regs, 0, first, len(body))
        code += b"".join(body)
        first += len(body)
    offset = 24 + len(table)
    header = struct.pack("<HHIIIII", 1, entry, len(functions), first, 24, offset, offset + len(code))
    return header + table + code


def patched(data, at, piece):
    return data[:at] + piece + data[at + len(piece) :]


class Lent:
    """Words lent to a call, with words beside them that must stay."""

    def __init__(self, count):
        self.all = (ctypes.c_uint64 * (count + 2 * BESIDE))(*[FILL] * (count + 2 * BESIDE))
        self.words = (ctypes.c_uint64 * count).from_buffer(self.all, BESIDE * ctypes.sizeof(ctypes.c_uint64))

    def stayed_beside(self):
        return list(self.all[:BESIDE]) + list(self.all[-BESIDE:]) == [FILL] * (2 * BESIDE)


def own_copy(data):
    """A copy of its own: bytes(data) would be the same object."""
    return bytes(bytearray(data))


def count(name, rows, fault_of):
    """Prints what is wrong with each row, if anything is, and how many there are; gives the exit status."""
    wrong = 0
    for title, *row in rows:
        fault = fault_of(*row)
        if fault:
            wrong += 1
            print(f"wrong: {title}: {fault}")
    print(f"boundary (Python): {name}: {len(rows)} cases, {wrong} wrong")
    return 1 if wrong else 0
