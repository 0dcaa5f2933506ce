"""Tests of the module knitcauldron with the engine: good and refused calls, wrong arguments, and the memory that was lent.

The variable KNIT_LIBRARY names the engine's library.
"""

import array
import ctypes
import dataclasses
import fractions
import mmap
import os
import pathlib
import pickle
import re
import struct
import tempfile
import threading
import unittest
from unittest import mock

import knitcauldron
from knitcauldron import (
    Digest,
    EventId,
    Execute,
    Frame,
    ImageFault,
    Kind,
    Library,
    Limits,
    Needed,
    NoLibrary,
    NoRoom,
    NotAdmitted,
    Profile,
    Quad,
    Refused,
    Room,
    Run,
    Status,
    UnlistedAnswer,
    Validate,
    Value,
    enough_room,
)

HEADER = pathlib.Path(__file__).resolve().parents[2] / "include" / "knitcauldron.h"
FILL = 2**64 - 1
UNIT = Value(Kind.UNIT)

DOCUMENT_01 = bytes.fromhex(
    "01 00 00 00 01 00 00 00 02 00 00 00 18 00 00 00 28 00 00 00 40 00 00 00 07 00 00 00 01 00 00 00"
    "00 00 00 00 02 00 00 00 06 00 00 00 00 00 00 00 ff ff ff ff 37 00 00 00 00 00 00 00 00 00 00 00"
)


def setUpModule():
    global knit
    knit = Library()


def instr(op, small=0, a=0, b=0, c=0, w=0):
    return struct.pack("<BBHHHI", op, small, a, b, c, w & 0xFFFF_FFFF)


NOP, TRAP = instr(0), instr(1)


def load_bool(dst, truth):
    return instr(5, small=truth, a=dst)


def load_i32(dst, number):
    return instr(6, a=dst, w=number)


def jump(target):
    return instr(51, w=target)


def call(dst, function, arg_base, arg_count):
    return instr(54, a=dst, b=function, c=arg_base, w=arg_count)


def ret(src):
    return instr(55, a=src)


def program(*functions, entry=0):
    """An image of functions, each given as (registers, [instructions])."""
    table, code, first = b"", b"", 0
    for registers, body in functions:
        table += struct.pack("<IHHII", 7, registers, 0, first, len(body))
        code += b"".join(body)
        first += len(body)
    offset = 24 + len(table)
    header = struct.pack("<HHIIIII", 1, entry, len(functions), first, 24, offset, offset + len(code))
    return header + table + code


def patched(data, at, byte):
    return data[:at] + bytes([byte]) + data[at + 1 :]


def lend(frame_words, register_words):
    return Room(
        frame_words=array.array("Q", [FILL] * frame_words), register_words=array.array("Q", [FILL] * register_words)
    )


TWO = program((1, [NOP, ret(0)]), (1, [NOP, ret(0)]))

IMAGE_FAULTS = [
    (b"", knitcauldron.ShortError()),
    (DOCUMENT_01[:23], knitcauldron.ShortError()),
    (patched(DOCUMENT_01, 0, 2), knitcauldron.FormError()),
    (DOCUMENT_01[:63], knitcauldron.LayoutError()),
    (patched(TWO, 46, 1), knitcauldron.FunctionTableError(1)),
    # Only the sum fails, so that the number is that of all functions.
    (patched(TWO, 52, 1), knitcauldron.FunctionTableError(2)),
    (patched(TWO, 92, 56), knitcauldron.InstructionError(3)),
]

VERDICTS = [
    (DOCUMENT_01, Profile(max_registers=0), knitcauldron.ProfileError(0, 1)),
    (DOCUMENT_01, Profile(max_functions=0), knitcauldron.ProfileError(0, 2)),
    (DOCUMENT_01, Profile(max_call_depth=0), knitcauldron.ProfileError(0, 3)),
    (DOCUMENT_01, Profile(max_instrs_per_function=0), knitcauldron.ProfileError(0, 4)),
    (DOCUMENT_01, Profile(max_fuel=0), knitcauldron.ProfileError(0, 5)),
    (DOCUMENT_01, Profile(max_registers=16_385), knitcauldron.ProfileError(1, 1)),
    (DOCUMENT_01, Profile(max_functions=65_535), knitcauldron.ProfileError(1, 2)),
    (DOCUMENT_01, Profile(max_call_depth=1_025), knitcauldron.ProfileError(1, 3)),
    (DOCUMENT_01, Profile(max_instrs_per_function=2**32 - 1), knitcauldron.ProfileError(1, 4)),
    (DOCUMENT_01, Profile(max_fuel=2**32), knitcauldron.ProfileError(1, 5)),
    (program(), Profile(), knitcauldron.EmptyProgramError()),
    (program((1, [ret(0)]), entry=1), Profile(), knitcauldron.InvalidEntryError(1)),
    (TWO, Profile(max_functions=1), knitcauldron.TooManyFunctionsError(2, 1)),
    (program((257, [ret(0)])), Profile(), knitcauldron.TooManyRegistersError(0, 257, 256)),
    (program((1, [ret(0)] * 8_193)), Profile(), knitcauldron.TooManyInstructionsError(0, 8_193, 8_192)),
    (program((1, [ret(0)]), (1, [ret(65_535)])), Profile(), knitcauldron.InvalidRegisterError(1, 65_535)),
    (program((1, [jump(2**32 - 1), ret(0)])), Profile(), knitcauldron.InvalidJumpError(0, 2**32 - 1)),
    (program((1, [call(0, 9, 0, 0), ret(0)])), Profile(), knitcauldron.InvalidCallError(0, 9)),
    (program((1, [NOP])), Profile(), knitcauldron.MissingReturnError(0)),
    (program((1, [call(0, 0, 2, 65_535), ret(0)])), Profile(), knitcauldron.InvalidArgWindowError(0, 2, 65_535)),
]


class Case(unittest.TestCase):
    def refuses(self, expected, called, *arguments):
        """Sees that a call is refused in just this way."""
        with self.subTest(expected=repr(expected)):
            with self.assertRaises(Refused) as caught:
                called(*arguments)
            self.assertIs(type(caught.exception), type(expected))
            self.assertEqual(caught.exception.values, expected.values)


class Refusals(Case):
    def test_image_faults_are_refused_by_both_calls(self):
        for image, expected in IMAGE_FAULTS:
            self.assertIsInstance(expected, ImageFault)
            self.refuses(expected, knit.validate, image, Profile(max_fuel=0))
            room = lend(8, 8)
            self.refuses(expected, knit.execute, image, Limits(), room)
            self.assertEqual(list(room.frame_words) + list(room.register_words), [FILL] * 16)

    def test_verdicts(self):
        for image, profile, expected in VERDICTS:
            self.assertIsInstance(expected, NotAdmitted)
            self.refuses(expected, knit.validate, image, profile)

    def test_highest_limits_are_admitted(self):
        knit.validate(DOCUMENT_01, Profile(16_384, 4_096, 1_024, 1_000_000, 1_000_000_000))
        knit.validate(program((256, [ret(255)])))
        knit.validate(program((1, [ret(0)] * 8_192)))

    def test_too_little_room(self):
        itself = program((2, [load_i32(0, 5), call(1, 0, 0, 1)]))
        for frames, registers, expected in [
            (0, 0, knitcauldron.FrameRoomError(0)),
            (3, 9, knitcauldron.FrameRoomError(0)),
            (4, 1, knitcauldron.RegisterRoomError(0)),
            (7, 9, knitcauldron.FrameRoomError(2)),
            (8, 3, knitcauldron.RegisterRoomError(2)),
        ]:
            self.assertIsInstance(expected, NoRoom)
            self.refuses(expected, knit.execute, itself, Limits(), lend(frames, registers))

    def test_too_few_bytes_for_an_identifier(self):
        for length in range(25):
            out = bytearray(b"x" * length)
            self.refuses(knitcauldron.IdRoomError(), knit.event_id.into, 1, 2, out)
            self.assertEqual(out, b"x" * length)

    def test_every_number_is_provoked_here(self):
        provoked = [expected for *_, expected in IMAGE_FAULTS + VERDICTS]
        provoked += [knitcauldron.FrameRoomError(0), knitcauldron.RegisterRoomError(0), knitcauldron.IdRoomError()]
        self.assertEqual({one.number for one in provoked}, {*range(1, 8), *range(9, 21)})

    def test_texts_have_their_numbers_and_an_advice(self):
        texts = set()
        for *_, expected in IMAGE_FAULTS + VERDICTS:
            text = str(expected)
            self.assertRegex(text, r"^[^{}\n]+; [^{}\n]+$")
            shown = [] if isinstance(expected, knitcauldron.ProfileError) else expected.values
            for value in shown:
                self.assertIn(str(value), text)
            texts.add(text)
        # Both kinds of short image have the same text.
        self.assertEqual(len(texts), len(IMAGE_FAULTS + VERDICTS) - 1)

    def test_the_text_of_a_profile(self):
        self.assertEqual(
            str(knitcauldron.ProfileError(0, 4)),
            "the profile's max_instrs_per_function is 0; set it to a number from 1 to 1000000",
        )
        self.assertEqual(
            str(knitcauldron.ProfileError(1, 1)),
            "the profile's max_registers is too high; set it to a number from 1 to 16384",
        )

    def test_values_have_names(self):
        refusal = knitcauldron.InvalidArgWindowError(3, 5, 6)
        self.assertEqual((refusal.function, refusal.arg_base, refusal.arg_count), (3, 5, 6))
        self.assertEqual((refusal.number, refusal.name, refusal.values), (20, "InvalidArgWindow", (3, 5, 6)))

    def test_refusals_go_from_process_to_process(self):
        again = pickle.loads(pickle.dumps(knitcauldron.InvalidJumpError(1, 9)))
        self.assertEqual((type(again), again.values, again.target), (knitcauldron.InvalidJumpError, (1, 9), 9))


def digest_of(status, kind, payload, fuel_used):
    """By document 01's words."""
    digest = 0xCBF2_9CE4_8422_2325
    for word in (status, kind, payload, 0, fuel_used):
        digest = (digest ^ word) * (2**44 + 435) % 2**64
    return digest


def expected_run(status, value, fuel_used):
    return Run(status, value, fuel_used, digest_of(status.value, value.kind.value, value.payload, fuel_used))


# A program for each trap under fuel 20 and depth 3, with the fuel that it uses up to there.
TRAPS = {
    Status.INVALID_PC: (program((2, [])), 0),
    Status.INVALID_REGISTER: (program((2, [ret(2)])), 1),
    Status.TYPE_MISMATCH: (program((2, [instr(23, a=0, b=0, c=1)])), 1),
    Status.DIVISION_BY_ZERO: (program((2, [load_i32(0, 1), load_i32(1, 0), instr(26, a=0, b=0, c=1)])), 3),
    Status.INTEGER_OVERFLOW: (program((2, [load_i32(0, 2**31 - 1), load_i32(1, 1), instr(23, a=0, b=0, c=1)])), 3),
    Status.FUEL_EXCEEDED: (program((2, [jump(0)])), 20),
    Status.CALL_DEPTH_EXCEEDED: (program((2, [call(0, 0, 0, 0)])), 3),
    Status.INVALID_FUNCTION: (program((2, [ret(0)]), entry=1), 0),
    Status.ASSERT_FAILED: (program((2, [load_bool(0, 0), instr(2, a=0)])), 2),
    Status.EXPLICIT_TRAP: (program((2, [TRAP])), 1),
}
TRAP_LIMITS = Limits(20, 3)


class Runs(Case):
    def test_every_kind_that_instructions_make_is_returned(self):
        for load, value in [
            (instr(3), UNIT),
            *((instr(4, small=bits), Value(Kind.QUAD, bits)) for bits in range(4)),
            (load_bool(0, 0), Value(Kind.BOOL, 0)),
            (load_bool(0, 1), Value(Kind.BOOL, 1)),
            (load_i32(0, -(2**31)), Value(Kind.I32, 2**31)),
            (instr(7, w=2**32 - 1), Value(Kind.U32, 2**32 - 1)),
            (instr(8, w=-1), Value(Kind.FX, 2**32 - 1)),
        ]:
            with self.subTest(value=str(value)):
                run = knit.execute(program((1, [load, ret(0)])), Limits(), lend(4, 1))
                self.assertEqual(run, expected_run(Status.RETURNED, value, 2))

    def test_every_trap_is_a_result_with_its_fuel(self):
        self.assertEqual({Status.RETURNED, *TRAPS}, set(Status))
        for status, (image, fuel_used) in TRAPS.items():
            with self.subTest(status=status.name):
                run = knit.execute(image, TRAP_LIMITS, Room.enough(TRAP_LIMITS, 2))
                self.assertEqual(run, expected_run(status, UNIT, fuel_used))

    def test_limits_reach_the_engine_whole(self):
        forever = program((1, [jump(0)]))
        self.assertEqual(knit.execute(forever, Limits(), lend(4, 1)).fuel_used, 1_000_000)
        self.assertEqual(knit.execute(forever, Limits(0), lend(4, 1)).fuel_used, 0)
        for fuel in (2, 2**32, 2**64 - 1):
            self.assertIs(knit.execute(DOCUMENT_01, Limits(fuel, 65_535), lend(4, 1)).status, Status.RETURNED)
        deep = program((1, [call(0, 0, 0, 0)]))
        self.assertEqual(knit.execute(deep, Limits(9_999, 65_535), Room.enough(Limits(0, 10_000), 1)).fuel_used, 9_999)

    def test_defaults_are_document_01_s(self):
        self.assertEqual(Limits(), Limits(fuel=1_000_000, max_call_depth=64))
        self.assertEqual(dataclasses.astuple(Profile()), (256, 256, 64, 8_192, 1_000_000))

    def test_runs_in_parallel_do_not_disturb_each_other(self):
        wrong = []

        def work():
            room = Room.enough(TRAP_LIMITS, 2)
            for _ in range(100):
                for status, (image, fuel_used) in TRAPS.items():
                    run = knit.execute(image, TRAP_LIMITS, room)
                    if run != expected_run(status, UNIT, fuel_used):
                        wrong.append(run)
            finished.append(True)

        finished = []
        threads = [threading.Thread(target=work) for _ in range(4)]
        for thread in threads:
            thread.start()
        for thread in threads:
            thread.join()
        self.assertEqual((wrong, len(finished)), ([], 4))


    def test_a_room_serves_one_call_at_a_time(self):
        forever, fuel = program((1, [jump(0)])), 200_000_000
        room, long_run, refused = lend(4, 1), [], 0

        def work():
            while not long_run:
                try:
                    long_run.append(knit.execute(forever, Limits(fuel), room))
                except RuntimeError:
                    continue

        thread = threading.Thread(target=work)
        thread.start()
        # This thread goes on while the engine runs in the other.
        while thread.is_alive():
            try:
                knit.execute(DOCUMENT_01, Limits(), room)
            except RuntimeError:
                refused += 1
        thread.join()
        self.assertEqual(long_run, [expected_run(Status.FUEL_EXCEEDED, UNIT, fuel)])
        self.assertGreater(refused, 0)

    def test_a_room_is_free_after_a_refusal(self):
        room = lend(4, 1)
        self.refuses(knitcauldron.ShortError(), knit.execute, b"", Limits(), room)
        self.assertRaises(TypeError, knit.execute, None, Limits(), room)
        self.assertEqual(knit.execute(DOCUMENT_01, Limits(), room).fuel_used, 2)


class Memory(Case):
    # The entry passes registers 1 and 2 on, the other function gives the first of them back.
    PASSES_ON = program((4, [load_i32(1, 7), load_bool(2, 1), call(3, 1, 1, 2), ret(3)]), (4, [ret(0)]))

    def holds(self, room, records, values):
        """Sees that a room has these first, and after them what was lent."""
        for words, written in [(room.frame_words, sum(records, [])), (room.register_words, [one.word for one in values])]:
            self.assertEqual(list(words), written + [FILL] * (len(words) - len(written)))

    def test_a_call_leaves_both_frames_and_their_registers(self):
        seven, truth = Value(Kind.I32, 7), Value(Kind.BOOL, 1)
        room = lend(13, 10)
        self.assertEqual(knit.execute(self.PASSES_ON, Limits(), room).value, seven)
        entry, callee, unreached = room.frames()
        self.assertEqual(entry, Frame(function=0, place=3, return_register=0, first_register=0))
        self.assertEqual(callee, Frame(function=1, place=0, return_register=3, first_register=4))
        self.assertEqual(unreached.function, FILL)
        values = [UNIT, seven, truth, seven, seven, truth, UNIT, UNIT]
        self.holds(room, [[0, 3, 0, 0], [1, 0, 3, 4]], values)
        self.assertEqual([Value.from_word(word) for word in room.register_words], values + [None, None])

    def test_a_trap_leaves_its_frame_at_the_instruction_at_fault(self):
        image = program((1, [NOP, call(0, 1, 0, 0)]), (1, [NOP, NOP, TRAP]))
        room = lend(8, 2)
        self.assertIs(knit.execute(image, Limits(), room).status, Status.EXPLICIT_TRAP)
        self.holds(room, [[0, 2, 0, 0], [1, 2, 0, 1]], [UNIT, UNIT])
        self.assertEqual(list(room.frames()), [Frame(0, 2, 0, 0), Frame(1, 2, 0, 1)])
        self.assertEqual(list(lend(3, 0).frames()), [])

    def test_a_refused_call_leaves_the_state_before_it(self):
        image = program((2, [load_i32(0, 5), call(1, 0, 0, 1)]))
        room = lend(7, 9)
        self.refuses(knitcauldron.FrameRoomError(2), knit.execute, image, Limits(), room)
        self.holds(room, [[0, 1, 0, 0]], [Value(Kind.I32, 5), UNIT])

    def test_ctypes_arrays_are_lent_where_they_stand(self):
        words = (ctypes.c_uint64 * 12)(*[FILL] * 12)
        frames = (ctypes.c_uint64 * 4).from_buffer(words, 8)
        registers = (ctypes.c_ulonglong * 1).from_buffer(words, 48)
        run = knit.execute(DOCUMENT_01, Limits(), Room(frame_words=frames, register_words=registers))
        self.assertEqual(run.value.content, -1)
        self.assertEqual(list(words), [FILL, 0, 1, 0, 0, FILL, run.value.word] + [FILL] * 5)

    def test_an_array_can_grow_after_a_run(self):
        room = lend(4, 1)
        knit.execute(DOCUMENT_01, Limits(), room)
        room.frame_words.append(1)
        room.register_words.append(1)
        self.assertEqual((len(room.frame_words), len(list(room.frames()))), (5, 1))
        self.assertEqual(knit.execute(DOCUMENT_01, Limits(), room).fuel_used, 2)

    def test_a_function_without_registers_needs_none_lent(self):
        image = program((0, [TRAP]))
        for none in (array.array("Q"), (ctypes.c_uint64 * 0)()):
            room = Room(frame_words=array.array("Q", [0] * 4), register_words=none)
            self.assertIs(knit.execute(image, Limits(), room).status, Status.EXPLICIT_TRAP)

    def test_what_is_called_enough_is_enough_and_no_less(self):
        image = program((5, [call(0, 0, 0, 5), ret(0)]))
        for depth in (0, 1, 2, 9):
            limits = Limits(100, depth)
            frames, registers = enough_room(depth, 5)
            run = knit.execute(image, limits, Room.enough(limits, 5))
            self.assertIs(run.status, Status.CALL_DEPTH_EXCEEDED)
            with self.assertRaises(knitcauldron.FrameRoomError):
                knit.execute(image, limits, lend(frames - 1, registers))
            with self.assertRaises(knitcauldron.RegisterRoomError):
                knit.execute(image, limits, lend(frames, registers - 1))

    def test_the_largest_room_can_be_counted(self):
        self.assertEqual(enough_room(65_535, 65_535), Needed(frame_words=262_140, register_words=4_294_836_225))
        self.assertEqual(enough_room(0, 0), Needed(frame_words=4, register_words=0))


class Images(Case):
    def both(self, image):
        knit.validate(image)
        return knit.execute(image, Limits(), lend(4, 1)).value.content

    def test_bytes_and_views_of_any_kind_are_the_same_image(self):
        spread = bytearray(128)
        spread[::2] = DOCUMENT_01
        words = array.array("I", DOCUMENT_01)
        for image in [
            DOCUMENT_01,
            bytearray(DOCUMENT_01),
            memoryview(DOCUMENT_01),
            memoryview(bytearray(DOCUMENT_01)),
            memoryview(b"xyz" + DOCUMENT_01)[3:],
            memoryview(bytearray(b"xyz" + DOCUMENT_01 + b"z"))[3:-1],
            memoryview(spread)[::2],
            memoryview(words),
        ]:
            with self.subTest(image=repr(image)):
                self.assertEqual(self.both(image), -1)

    def test_a_mapped_file_is_an_image(self):
        with tempfile.TemporaryFile() as file:
            file.write(DOCUMENT_01)
            file.flush()
            with mmap.mmap(file.fileno(), 0, access=mmap.ACCESS_READ) as mapped:
                with memoryview(mapped) as view:
                    self.assertEqual(self.both(view), -1)

    def test_empty_images_of_every_type(self):
        for image in (b"", bytearray(), memoryview(b""), memoryview(bytearray())):
            self.refuses(knitcauldron.ShortError(), knit.validate, image)
            self.refuses(knitcauldron.ShortError(), knit.execute, image, Limits(), lend(4, 1))

    def test_an_image_stays_and_is_free_afterwards(self):
        image = bytearray(DOCUMENT_01)
        self.both(image)
        self.assertEqual(image, DOCUMENT_01)
        image.append(0)
        self.refuses(knitcauldron.LayoutError(), knit.validate, image)

    def test_a_length_is_that_of_the_memory(self):
        class Longer(bytes):
            def __len__(self):
                return 65

            # What a view of it holds, from Python 3.12 on.
            def __buffer__(self, flags):
                return memoryview(DOCUMENT_01 + b"\0")

        self.assertEqual(self.both(Longer(DOCUMENT_01)), -1)

    def test_other_types_are_no_image(self):
        for image in (None, "text", 64, list(DOCUMENT_01), array.array("B", DOCUMENT_01), pathlib.Path("x")):
            with self.assertRaisesRegex(TypeError, "an image must be"):
                knit.validate(image)
            with self.assertRaisesRegex(TypeError, "an image must be"):
                knit.execute(image, Limits(), lend(4, 1))


class WrongArguments(Case):
    def test_numbers_that_the_c_types_do_not_hold(self):
        makers = {
            "max_registers": (16, lambda n: Profile(max_registers=n)),
            "max_functions": (16, lambda n: Profile(max_functions=n)),
            "max_call_depth": (16, lambda n: Profile(max_call_depth=n)),
            "max_instrs_per_function": (32, lambda n: Profile(max_instrs_per_function=n)),
            "max_fuel": (64, lambda n: Profile(max_fuel=n)),
            "fuel": (64, lambda n: Limits(fuel=n)),
            "max_call_depth of a run": (16, lambda n: Limits(max_call_depth=n)),
            "largest_registers": (16, lambda n: enough_room(1, n)),
            "depth of enough room": (16, lambda n: enough_room(n, 0)),
            "lesson": (32, lambda n: knit.event_id(n, 0)),
            "digest": (64, lambda n: knit.event_id(0, n)),
            "status": (64, lambda n: knit.digest(n, 0, 0, 0)),
            "kind": (64, lambda n: knit.digest(0, n, 0, 0)),
            "payload": (64, lambda n: knit.digest(0, 0, n, 0)),
            "fuel_used": (64, lambda n: knit.digest(0, 0, 0, n)),
            "word": (64, Value.from_word),
        }
        for name, (bits, make) in makers.items():
            with self.subTest(name=name):
                make(0)
                make(2**bits - 1)
                for number in (-1, 2**bits, 2**bits + 1, 2**80):
                    self.assertRaisesRegex(ValueError, f"from 0 to {2**bits - 1}, not", make, number)
                for other in (1.0, "1", None, True, b"1", [1]):
                    self.assertRaisesRegex(TypeError, "a whole number", make, other)

    def test_numbers_changed_behind_the_module_s_back(self):
        profile, limits = Profile(), Limits()
        object.__setattr__(profile, "max_registers", 65_536 + 256)
        object.__setattr__(limits, "max_call_depth", 65_536 + 64)
        self.assertRaises(ValueError, knit.validate, DOCUMENT_01, profile)
        self.assertRaises(ValueError, knit.execute, DOCUMENT_01, limits, lend(4, 1))

    def test_profiles_and_limits_do_not_change(self):
        with self.assertRaises(dataclasses.FrozenInstanceError):
            Profile().max_fuel = 1
        with self.assertRaises(dataclasses.FrozenInstanceError):
            Limits().fuel = 1

    def test_other_things_than_profile_limits_and_room(self):
        room = lend(4, 1)
        self.assertRaisesRegex(TypeError, "must be a Profile", knit.validate, DOCUMENT_01, (256, 256, 64, 8_192, 9))
        self.assertRaisesRegex(TypeError, "must be a Limits", knit.execute, DOCUMENT_01, Profile(), room)
        self.assertRaisesRegex(TypeError, "must be a Room", knit.execute, DOCUMENT_01, Limits(), (room, room))
        self.assertRaisesRegex(TypeError, "must be a Limits", Room.enough, 64, 1)

    def test_words_of_another_type(self):
        good = array.array("Q", [0] * 4)
        for words in (
            None,
            [0] * 4,
            bytes(32),
            bytearray(32),
            array.array("q", [0] * 4),
            array.array("I", [0] * 8),
            array.array("d", [0.0] * 4),
            (ctypes.c_int64 * 4)(),
            (ctypes.c_uint32 * 8)(),
            (ctypes.c_uint64 * 2 * 2)(),
            ctypes.c_uint64(),
        ):
            with self.subTest(words=repr(words)):
                with self.assertRaisesRegex(TypeError, "^frame_words must be array"):
                    Room(frame_words=words, register_words=good)
                with self.assertRaisesRegex(TypeError, "^register_words must be array"):
                    Room(frame_words=good, register_words=words)

    def test_words_are_looked_at_again_when_they_are_lent(self):
        room = lend(4, 1)
        room.register_words = bytearray(8)
        self.assertRaisesRegex(TypeError, "^register_words", knit.execute, DOCUMENT_01, Limits(), room)

    def test_words_off_their_alignment(self):
        words = (ctypes.c_uint64 * 4).from_buffer(bytearray(40), 4)
        off = words if ctypes.addressof(words) % 8 else (ctypes.c_uint64 * 4).from_buffer(bytearray(40), 1)
        with self.assertRaisesRegex(ValueError, "an address that 8 divides"):
            Room(frame_words=off, register_words=array.array("Q"))

    def test_lent_memory_that_overlaps(self):
        shared = bytearray(8 * 24)
        shared[:64] = DOCUMENT_01

        def words(at, count):
            return (ctypes.c_uint64 * count).from_buffer(shared, 8 * at)

        def ask(image, frames, registers):
            return knit.execute(image, Limits(), Room(frame_words=frames, register_words=registers))

        image = memoryview(shared)[:64]
        for frames, registers in [
            (words(8, 4), words(11, 1)),
            (words(8, 4), words(8, 1)),
            (words(7, 4), words(12, 1)),
            (words(8, 4), words(0, 1)),
            (words(8, 5), words(9, 2)),
        ]:
            self.assertRaisesRegex(ValueError, "must not share memory", ask, image, frames, registers)
        self.assertEqual(ask(image, words(8, 4), words(12, 1)).fuel_used, 2)
        same = array.array("Q", [0] * 8)
        self.assertRaisesRegex(ValueError, "must not share memory", ask, DOCUMENT_01, same, same)

    def test_rooms_name_their_words(self):
        words = array.array("Q", [0] * 4)
        self.assertRaises(TypeError, Room, words, words)

    def test_identifiers_are_written_into_bytes_that_can_be(self):
        for out in (None, bytes(25), "x" * 25, array.array("B", bytes(25))):
            self.assertRaisesRegex(TypeError, "out must be a bytearray", knit.event_id.into, 1, 2, out)
        for out in (memoryview(bytes(25)), memoryview(bytearray(50))[::2]):
            self.assertRaisesRegex(TypeError, "writable and in one piece", knit.event_id.into, 1, 2, out)


class ValuesAndIdentifiers(Case):
    SAMPLES = [
        (Kind.UNIT, 0, None, "Unit"),
        (Kind.QUAD, 0, Quad.N, "Quad N"),
        (Kind.QUAD, 3, Quad.S, "Quad S"),
        (Kind.BOOL, 0, False, "Bool false"),
        (Kind.BOOL, 1, True, "Bool true"),
        (Kind.I32, 2**32 - 1, -1, "I32 -1"),
        (Kind.I32, 2**31 - 1, 2**31 - 1, "I32 2147483647"),
        (Kind.U32, 2**32 - 1, 2**32 - 1, "U32 4294967295"),
        (Kind.FX, 0, 0, "Fx 0.0"),
        (Kind.FX, 98_304, fractions.Fraction(3, 2), "Fx 1.5"),
        (Kind.FX, 2**32 - 1, fractions.Fraction(-1, 65_536), "Fx -0.0000152587890625"),
        (Kind.FX, 2**31 - 1, fractions.Fraction(2**31 - 1, 65_536), "Fx 32767.9999847412109375"),
        (Kind.FX, 2**31, -32_768, "Fx -32768.0"),
        (Kind.TUPLE, 7, 7, "Tuple 7"),
        (Kind.RECORD, 8, 8, "Record 8"),
        (Kind.ADT, 2**32 - 1, 2**32 - 1, "Adt 4294967295"),
    ]

    def test_values_go_to_words_and_back(self):
        for kind, payload, content, text in self.SAMPLES:
            value = Value(kind, payload)
            self.assertEqual((value.content, type(value.content) is bool), (content, type(content) is bool))
            self.assertEqual((str(value), value.word), (text, kind.value * 2**32 + payload))
            self.assertEqual(Value.from_word(value.word), value)
            self.assertEqual(Value.from_parts(kind.value, payload), value)

    def test_words_that_no_value_has(self):
        for kind, payload in [(0, 1), (1, 4), (2, 2), (9, 0), (2**64 - 1, 0), (3, 2**32)]:
            self.assertIsNone(Value.from_parts(kind, payload))
        self.assertIsNone(Value.from_word(FILL))
        self.assertRaises(ValueError, Value, Kind.BOOL, 2)
        self.assertRaises(TypeError, Value, 2, 1)

    def test_digests_of_any_words(self):
        # Worked out apart from this program.
        self.assertEqual(knit.digest(0, 3, 4_294_967_295, 2), 0x6FFA_4144_D88D_4A53)
        self.assertEqual(knit.digest(1, 2, 3, 4), 0xEE65_C8BF_4F60_002F)
        for words in [(0, 0, 0, 0), (FILL,) * 4, (2**63, 0, 0, 0), (0, 2**63, 0, 0), (0, 0, 2**63, 0), (0, 0, 0, 2**63)]:
            self.assertEqual(knit.digest(*words), digest_of(*words))

    def test_identifiers(self):
        for lesson, digest in [(0, 0), (42, 0x6FFA_4144_D88D_4A53), (2**32 - 1, 2**64 - 1), (0x89AB_CDEF, 0x0123_4567_89AB_CDEF)]:
            self.assertEqual(knit.event_id(lesson, digest), f"{lesson:08x}-{digest:016x}")

    def test_identifiers_in_lent_bytes(self):
        line = bytearray(b"UID:" + b"." * 25 + b"\r\n")
        with memoryview(line) as view:
            self.assertEqual(knit.event_id.into(42, 9, view[4:]), "0000002a-0000000000000009")
        self.assertEqual(line, b"UID:0000002a-0000000000000009\r\n")
        exact = bytearray(25)
        self.assertEqual(knit.event_id.into(1, 2, exact), exact.decode())
        exact.append(0)


class Libraries(Case):
    def test_a_path_or_the_variable(self):
        path = os.environ["KNIT_LIBRARY"]
        for named in (path, pathlib.Path(path), os.fsencode(path)):
            with mock.patch.dict(os.environ, KNIT_LIBRARY="/no/such/library.so"):
                self.assertEqual(Library(named).digest(1, 2, 3, 4), 0xEE65_C8BF_4F60_002F)
        self.assertEqual(Library().digest(1, 2, 3, 4), 0xEE65_C8BF_4F60_002F)

    def test_no_library_named(self):
        with mock.patch.dict(os.environ):
            os.environ.pop("KNIT_LIBRARY", None)
            self.assertRaisesRegex(NoLibrary, "no library was named; .* KNIT_LIBRARY", Library)
        with mock.patch.dict(os.environ, KNIT_LIBRARY=""):
            self.assertRaisesRegex(NoLibrary, "no library was named", Library)
        self.assertRaisesRegex(NoLibrary, "no library was named", Library, "")

    def test_a_library_that_can_t_be_loaded(self):
        self.assertRaisesRegex(NoLibrary, "can't be loaded: .*such-library", Library, "./no-such-library.so")
        self.assertRaisesRegex(NoLibrary, "can't be loaded", Library, __file__)
        self.assertRaises(TypeError, Library, 5)

    def test_a_library_without_a_function(self):
        symbols = [one.symbol for one in (Validate, Execute, Digest, EventId)]
        engine = ctypes.CDLL(os.environ["KNIT_LIBRARY"])

        class Lacking:
            def __init__(self, symbol):
                self.symbol = symbol

            def __getitem__(self, symbol):
                if symbol == self.symbol:
                    raise AttributeError(symbol)
                return engine[symbol]

        for symbol in symbols:
            with mock.patch("ctypes.CDLL", lambda path, symbol=symbol: Lacking(symbol)):
                self.assertRaisesRegex(NoLibrary, f"the library lacks {symbol};", Library)

    def test_another_library(self):
        self.assertRaisesRegex(NoLibrary, "lacks knit_validate", Library, "libc.so.6")


def answering(call, number, *words):
    """A call of a function that is not the engine's: it answers so whatever it is asked."""

    def function(*arguments):
        arguments[-1][:] = list(words) + [0] * (5 - len(words))
        return number

    return call({call.symbol: function})


class Unlisted(Case):
    def unlisted(self, call, number, words, *arguments):
        with self.subTest(call=call.symbol, number=number, words=words):
            with self.assertRaisesRegex(UnlistedAnswer, f"{call.symbol} answered {number} with .*rules out"):
                answering(call, number, *words)(*arguments)

    def test_validate(self):
        for number, words in [(0, [1]), (6, []), (8, []), (9, []), (21, []), (1, [1]), (19, [0, 1]), (10, [2, 1]), (10, [0, 6])]:
            self.unlisted(Validate, number, words, b"")
        self.assertIsNone(answering(Validate, 0)(b""))

    def test_execute(self):
        for words in ([11], [0, 9], [0, 2, 2], [0, 3, 2**32], [4, 3, 1]):
            self.unlisted(Execute, 0, words, b"", Limits(), lend(4, 1))
        for number, words in [(10, [0, 1]), (9, []), (7, [1, 1])]:
            self.unlisted(Execute, number, words, b"", Limits(), lend(4, 1))
        run = answering(Execute, 0, 0, 4, 5, 6, 7)(b"", Limits(), lend(4, 1))
        self.assertEqual(run, Run(Status.RETURNED, Value(Kind.U32, 5), 6, 7))

    def test_event_id(self):
        for number, words in [(0, [24]), (0, []), (9, []), (1, []), (0, [25, 1])]:
            self.unlisted(EventId, number, words, 1, 2)
        self.assertEqual(answering(EventId, 0, 25)(1, 2), "\0" * 25)
        with self.assertRaises(UnlistedAnswer):
            answering(EventId, 0, 25).into(1, 2, bytearray(24))
        with self.assertRaises(UnlistedAnswer):
            answering(EventId, 0, 25).into(1, 2, bytearray(b"\xff" * 25))


class Header(Case):
    # Numbers that are neither a status nor a kind nor a refusal of the module's; TOO_LONG is the runner's.
    OTHERS = {
        *("ADMITTED", "DONE", "ANSWER_WORDS", "EVENT_ID_BYTES", "TOO_LONG"),
        *("FRAME_WORDS", "FRAME_FUNCTION", "FRAME_PLACE", "FRAME_RETURN_REGISTER", "FRAME_FIRST_REGISTER"),
    }

    def setUp(self):
        # Without a number after the name, int says so.
        defines = re.findall(r"^#define KNIT_(\w+)[ \t]*(\S*)", HEADER.read_text(), re.M)
        self.defined = {name: int(number) for name, number in defines}

    def under(self, prefix):
        return {name[len(prefix) :]: number for name, number in self.defined.items() if name.startswith(prefix)}

    def test_statuses_and_kinds(self):
        self.assertEqual(self.under("STATUS_"), {one.name: one.value for one in Status})
        self.assertEqual(self.under("KIND_"), {one.name: one.value for one in Kind})

    def test_refusals(self):
        refusals = [one for group in (ImageFault, NoRoom, NotAdmitted) for one in group.__subclasses__()]
        self.assertEqual(sorted(one.number for one in refusals), [*range(1, 8), *range(9, 21)])
        ours = {re.sub(r"(?<!^)(?=[A-Z])", "_", one.name).upper(): one.number for one in refusals}
        # What is left of the header's names is refusals, so that an added one is among them.
        left = {name for name in self.defined if not name.startswith(("STATUS_", "KIND_"))} - self.OTHERS
        self.assertEqual({name: self.defined[name] for name in left}, ours)

    def test_words(self):
        self.assertEqual(self.defined["ANSWER_WORDS"], knitcauldron.ANSWER_WORDS)
        self.assertEqual(self.defined["FRAME_WORDS"], knitcauldron.FRAME_WORDS)
        places = {field.name.upper(): at for at, field in enumerate(dataclasses.fields(Frame))}
        for name, at in places.items():
            self.assertEqual(self.defined[f"FRAME_{name}"], at)


if __name__ == "__main__":
    unittest.main()
