"""Runs timetable rules with the proved Knitcauldron engine, over its C boundary.

A rule comes as a program image in bytes. The engine comes as a shared library made of its archive:

    cc -shared -o libcapi.so -Wl,--whole-archive libcapi.a -Wl,--no-whole-archive

Then

    knit = Library("./libcapi.so")                          # or Library(), with the path in the variable KNIT_LIBRARY
    knit.validate(image, Profile())                         # raises Refused if the program is not admitted
    limits = Limits()
    room = Room.enough(limits, Profile().max_registers)     # the memory that a run works in
    run = knit.execute(image, limits, room)                 # raises Refused if the bytes are no image or the room is too small
    print(run.status, run.value, run.fuel_used, knit.event_id(42, run.digest))

Nothing has to be started first and nothing is kept between calls. A number that the engine's C types cannot hold is a ValueError, a
thing of another type a TypeError, both before the engine is called.

Threads: the engine runs with Python's lock released, so that other threads go on meanwhile, and calls may run in parallel, also
on the same image. Until a call is over all others must leave alone what is lent to it: nobody may write an image that is a
bytearray or a writable view, nor read or write the words of a room. The engine looks at an image once and then relies on it, so
that a breach may end the process. A Room refuses to be lent to two calls at a time; the rest is the caller's part. One room for
each thread, and images as bytes, are always right.

The engine is proved to give only the answers that its header lists. Should a library give another, the call raises
UnlistedAnswer: it is not the engine's. No input makes the engine do that.
"""

from __future__ import annotations

import array
import ctypes
import dataclasses
import enum
import fractions
import operator
import os
import threading
from typing import Iterator, NamedTuple, Optional, Sequence, Union

ANSWER_WORDS = 5
FRAME_WORDS = 4
EVENT_ID_BYTES = 25

Image = Union[bytes, bytearray, memoryview]
Words = Union["array.array[int]", "ctypes.Array[ctypes.c_uint64]"]


def _number(name: str, value: object, bits: int) -> int:
    """The number, if an unsigned C type of so many bits holds it; ctypes would cut off what is too much without a word."""
    if isinstance(value, bool) or not hasattr(value, "__index__"):
        raise TypeError(f"{name} must be a whole number, not {type(value).__name__}")
    number = operator.index(value)
    if not 0 <= number < 1 << bits:
        raise ValueError(f"{name} must be from 0 to {(1 << bits) - 1}, not {number}")
    return number


def _of_type(name: str, value: object, wanted: type) -> None:
    if not isinstance(value, wanted):
        raise TypeError(f"{name} must be a {wanted.__name__}, not {type(value).__name__}")


# A profile's limits in their order: the bits of the C type, and the highest value that a profile may have.
_PROFILE = {
    "max_registers": (16, 16_384),
    "max_functions": (16, 4_096),
    "max_call_depth": (16, 1_024),
    "max_instrs_per_function": (32, 1_000_000),
    "max_fuel": (64, 1_000_000_000),
}


@dataclasses.dataclass(frozen=True)
class Profile:
    """Five limits that an admitted program keeps to; without arguments those that document 01 calls safe.

    Each must be at least 1 and not above 16384, 4096, 1024, 1000000 and 1000000000; one that is not is refused when it is used. Of
    max_call_depth and max_fuel only that is looked at: a run has limits of its own.
    """

    max_registers: int = 256
    max_functions: int = 256
    max_call_depth: int = 64
    max_instrs_per_function: int = 8_192
    max_fuel: int = 1_000_000

    def __post_init__(self) -> None:
        self._numbers()

    def _numbers(self) -> list[int]:
        return [_number(name, getattr(self, name), bits) for name, (bits, _) in _PROFILE.items()]


@dataclasses.dataclass(frozen=True)
class Limits:
    """What a run may use; without arguments document 01's default configuration.

    fuel is how many instructions may begin, max_call_depth how many frames there may be at a time, the entry's among them; that one
    begins at limit 0 as well.
    """

    fuel: int = 1_000_000
    max_call_depth: int = 64

    def __post_init__(self) -> None:
        self._numbers()

    def _numbers(self) -> list[int]:
        return [_number("fuel", self.fuel, 64), _number("max_call_depth", self.max_call_depth, 16)]


class _Named(enum.Enum):
    """A number of the header with a text, by which it is printed."""

    def __new__(cls, number: int, text: str):
        member = object.__new__(cls)
        member._value_ = number
        member.text = text
        return member

    def __str__(self) -> str:
        return self.text


class Status(_Named):
    """How a run ended. A trap is a result and no refusal: it has a fuel count and a digest too."""

    RETURNED = 0, "returned"
    INVALID_PC = 1, "trapped, the place is past the function's end"
    INVALID_REGISTER = 2, "trapped, a register that the function does not have"
    TYPE_MISMATCH = 3, "trapped, a value of another kind than the instruction takes"
    DIVISION_BY_ZERO = 4, "trapped, a division by zero"
    INTEGER_OVERFLOW = 5, "trapped, a result outside its type"
    FUEL_EXCEEDED = 6, "trapped, the fuel is used up"
    CALL_DEPTH_EXCEEDED = 7, "trapped, too many frames at a time"
    INVALID_FUNCTION = 8, "trapped, a function that does not exist"
    ASSERT_FAILED = 9, "trapped, an Assert that is false"
    EXPLICIT_TRAP = 10, "trapped, a Trap instruction"


class Kind(_Named):
    """What a value is. No instruction makes a value of the last three kinds."""

    UNIT = 0, "Unit"
    QUAD = 1, "Quad"
    BOOL = 2, "Bool"
    I32 = 3, "I32"
    U32 = 4, "U32"
    FX = 5, "Fx"
    TUPLE = 6, "Tuple"
    RECORD = 7, "Record"
    ADT = 8, "Adt"


class Quad(enum.Enum):
    """A state of knowledge: neither, false, true, both."""

    N = 0
    F = 1
    T = 2
    S = 3


# How many payloads a kind has, where not every number of 32 bits is one.
_PAYLOADS = {Kind.UNIT: 1, Kind.QUAD: len(Quad), Kind.BOOL: 2}


@dataclasses.dataclass(frozen=True)
class Value:
    """What a register holds or a run gives back: a kind and 32 bits, which are 0 for Unit."""

    kind: Kind
    payload: int = 0

    def __post_init__(self) -> None:
        _of_type("kind", self.kind, Kind)
        if _number("payload", self.payload, 32) >= _PAYLOADS.get(self.kind, 1 << 32):
            raise ValueError(f"{self.kind} has no payload {self.payload}")

    @classmethod
    def from_parts(cls, kind: int, payload: int) -> Optional[Value]:
        """The value of a kind's number and a payload; None where no value has these."""
        kind, payload = _number("kind", kind, 64), _number("payload", payload, 64)
        try:
            return cls(Kind(kind), payload)
        except ValueError:
            return None

    @classmethod
    def from_word(cls, word: int) -> Optional[Value]:
        """The value of a register's word; None where no value has it, as in words that a run never reached."""
        return cls.from_parts(*divmod(_number("word", word, 64), 1 << 32))

    @property
    def word(self) -> int:
        """The word of a register that holds this value."""
        return self.kind.value << 32 | self.payload

    @property
    def content(self) -> Union[None, Quad, bool, int, fractions.Fraction]:
        """The value in Python's terms: None for Unit, a Quad, a bool, an int, or for Fx the exact Fraction."""
        signed = self.payload - (self.payload >> 31 << 32)
        if self.kind is Kind.UNIT:
            return None
        if self.kind is Kind.QUAD:
            return Quad(self.payload)
        if self.kind is Kind.BOOL:
            return self.payload == 1
        if self.kind is Kind.FX:
            return fractions.Fraction(signed, 65_536)
        return signed if self.kind is Kind.I32 else self.payload

    def __str__(self) -> str:
        content = self.content
        if content is None:
            return str(self.kind)
        if isinstance(content, Quad):
            return f"{self.kind} {content.name}"
        if isinstance(content, bool):
            return f"{self.kind} {str(content).lower()}"
        return f"{self.kind} {_decimal(content) if self.kind is Kind.FX else content}"


def _decimal(number: fractions.Fraction) -> str:
    """The exact decimal number; 1 / 65,536 has sixteen digits after the point, so that those are always enough."""
    whole, fraction = divmod(abs(number), 1)
    digits = f"{int(fraction * 10**16):016}".rstrip("0") or "0"
    return f"{'-' if number < 0 else ''}{whole}.{digits}"


@dataclasses.dataclass(frozen=True)
class Run:
    """What came of a run: how it ended, what it gave back (Unit if it trapped), how many instructions it began, and the digest."""

    status: Status
    value: Value
    fuel_used: int
    digest: int


@dataclasses.dataclass(frozen=True)
class Frame:
    """One frame's record. One that a run never reached holds the words that were lent.

    place is the instruction to come, or the one at fault, counted from the function's first; return_register the caller's register
    that the result goes to, 0 for the entry; first_register where the frame's registers begin among the room's.
    """

    function: int
    place: int
    return_register: int
    first_register: int


class Needed(NamedTuple):
    """How many words to lend."""

    frame_words: int
    register_words: int


def enough_room(max_call_depth: int, largest_registers: int) -> Needed:
    """How many words are enough for every program, so that no run is refused for want of room.

    largest_registers is the largest register count of any function in the image. Of an image that was admitted it is known to be at
    most the profile's max_registers. A run may need far less: this is for one that uses its whole depth.
    """
    frames = max(1, _number("max_call_depth", max_call_depth, 16))
    return Needed(frames * FRAME_WORDS, frames * _number("largest_registers", largest_registers, 16))


class Room:
    """Words lent to a run, which it works in: array('Q') or ctypes arrays of c_uint64, FRAME_WORDS for each frame, one for each
    register.

    What they hold before a run doesn't matter to it. Afterwards they hold the state that the run reached, also if it trapped or
    was refused for want of room; words that it never reached are as they were. One room may serve any number of runs, one at a
    time; it is a RuntimeError to lend it to another call before.
    """

    __slots__ = ("frame_words", "register_words", "_free")

    def __init__(self, *, frame_words: Words, register_words: Words) -> None:
        _lend_words("frame_words", frame_words)
        _lend_words("register_words", register_words)
        self.frame_words = frame_words
        self.register_words = register_words
        self._free = threading.Lock()

    @classmethod
    def enough(cls, limits: Limits, largest_registers: int) -> Room:
        """New words, as many as enough_room says; they are zeros."""
        _of_type("limits", limits, Limits)
        needed = enough_room(limits.max_call_depth, largest_registers)
        frames, registers = (array.array("Q", bytes(8 * words)) for words in needed)
        return cls(frame_words=frames, register_words=registers)

    def frames(self) -> Iterator[Frame]:
        """The records of all frames that the room can hold, the entry's first, a called function's right after its caller's.

        The engine doesn't say how many of them were running at the end: a record stays when its function returns, until another
        call takes its place. No record has the word 2**64 - 1, so that room filled with it shows how far a run came.
        """
        for at in range(0, len(self.frame_words) - FRAME_WORDS + 1, FRAME_WORDS):
            yield Frame(*self.frame_words[at : at + FRAME_WORDS])


class NoLibrary(Exception):
    """No library was named, it can't be loaded, or it lacks one of the engine's functions."""


class UnlistedAnswer(Exception):
    """The library answered what the engine's header rules out, so that it is not the engine's; nothing it says can be trusted."""


_REFUSALS: dict[int, type[Refused]] = {}


class Refused(Exception):
    """A call was refused. Its text says in one line what is wrong and what to do.

    number and name are those of document 01's table; values has what the engine answered, and each of these is also an attribute,
    by the names in fields. Functions and instructions are numbered from 0, an instruction by its place in the whole instruction
    table.
    """

    number: int
    name: str
    fields: tuple[str, ...] = ()
    text: str

    def __init_subclass__(cls, number: Optional[int] = None, **rest: object) -> None:
        super().__init_subclass__(**rest)
        if number is not None:
            cls.number, cls.name = number, cls.__name__.removesuffix("Error")
            _REFUSALS[number] = cls

    def __init__(self, *values: int) -> None:
        super().__init__(*values)
        vars(self).update(zip(self.fields, values))

    @property
    def values(self) -> tuple[int, ...]:
        """What the engine answered, in the order of fields."""
        return self.args

    def __str__(self) -> str:
        return self.text.format(**dict(zip(self.fields, self.args)))


class ImageFault(Refused):
    """The bytes are not an image."""


class NoRoom(Refused):
    """Too little memory was lent."""


class NotAdmitted(Refused):
    """The bytes are an image, but its program is not admitted."""


class ShortError(ImageFault, number=1):
    """The image has under 24 bytes."""

    text = "the image is shorter than its header of 24 bytes; see that the whole file was read"


class FormError(ImageFault, number=2):
    """The image's form number is not 1."""

    text = "the image's form number is not 1; have the rules compiled to form 1"


class LayoutError(ImageFault, number=3):
    """An offset or a length in the image's header differs from what its counts demand."""

    text = (
        "an offset or a length in the image's header differs from what its counts demand; "
        "see that the file is whole and unchanged"
    )


class FunctionTableError(ImageFault, number=4):
    """A function record is wrong: this function's, or if only the sum of the counts fails, function is the number of functions."""

    fields = ("function",)
    text = (
        "the function table is wrong at function {function}: the field that must be 0, the first instruction, or at its end the "
        "sum of the counts; have the rules compiled again"
    )


class InstructionError(ImageFault, number=5):
    """An instruction record is wrong."""

    fields = ("instruction",)
    text = (
        "instruction {instruction} has an unknown opcode, a value out of range, or something in a field that must be 0; "
        "have the rules compiled again"
    )


class FrameRoomError(NoRoom, number=6):
    """A frame would begin and no record is left for it; fuel_used is 0 for the entry's frame."""

    fields = ("fuel_used",)
    text = (
        "no record was left for a frame after {fuel_used} units of fuel; "
        "lend four words for each frame, for max_call_depth frames and at least one"
    )


class RegisterRoomError(NoRoom, number=7):
    """A frame would begin and too few words are left for its registers; fuel_used is 0 for the entry's frame."""

    fields = ("fuel_used",)
    text = (
        "too few words were left for a frame's registers after {fuel_used} units of fuel; "
        "lend each frame as many as the largest function has registers"
    )


class IdRoomError(NoRoom, number=9):
    """Under 25 bytes were lent for an identifier."""

    text = "fewer than 25 bytes were lent for an event identifier; lend 25"


class ProfileError(NotAdmitted, number=10):
    """A limit of the profile is out of range: fault is 0 if it is 0 and 1 if it is too high, limit its place, 1 to 5."""

    fields = ("fault", "limit")

    def __str__(self) -> str:
        name, (_, highest) = list(_PROFILE.items())[self.limit - 1]
        return f"the profile's {name} is {('0', 'too high')[self.fault]}; set it to a number from 1 to {highest}"


class EmptyProgramError(NotAdmitted, number=11):
    """The program has no function."""

    text = "the program has no function; compile at least one rule into it"


class InvalidEntryError(NotAdmitted, number=12):
    """The entry function does not exist."""

    fields = ("entry",)
    text = "the entry function {entry} does not exist; name one of the program's functions as the entry"


class TooManyFunctionsError(NotAdmitted, number=13):
    """The program has more functions than the profile allows."""

    fields = ("functions", "limit")
    text = "the program has {functions} functions and the profile allows {limit}; use fewer, or raise max_functions"


class TooManyRegistersError(NotAdmitted, number=14):
    """A function has more registers than the profile allows."""

    fields = ("function", "registers", "limit")
    text = "function {function} has {registers} registers and the profile allows {limit}; use fewer, or raise max_registers"


class TooManyInstructionsError(NotAdmitted, number=15):
    """A function has more instructions than the profile allows."""

    fields = ("function", "instructions", "limit")
    text = (
        "function {function} has {instructions} instructions and the profile allows {limit}; "
        "use fewer, or raise max_instrs_per_function"
    )


class InvalidRegisterError(NotAdmitted, number=16):
    """A function names a register that it does not have."""

    fields = ("function", "register")
    text = "function {function} names register {register}, which it does not have; name another one or give it more"


class InvalidJumpError(NotAdmitted, number=17):
    """A function jumps past its end."""

    fields = ("function", "target")
    text = "function {function} jumps to place {target}, past its end; jump to one of its instructions"


class InvalidCallError(NotAdmitted, number=18):
    """A function calls one that does not exist."""

    fields = ("function", "called")
    text = "function {function} calls function {called}, which does not exist; call one of the program's functions"


class MissingReturnError(NotAdmitted, number=19):
    """A function has no Ret."""

    fields = ("function",)
    text = "function {function} has no Ret; end it with one"


class InvalidArgWindowError(NotAdmitted, number=20):
    """A Call's arguments lie past the caller's registers, or are more than the called function has."""

    fields = ("function", "arg_base", "arg_count")
    text = (
        "function {function} passes {arg_count} arguments from register {arg_base} on, past its own registers or more than the "
        "called function has; pass fewer or give the functions more registers"
    )


def _lend_bytes(what: str, lent: Union[bytearray, memoryview]) -> tuple[ctypes.Array, int]:
    """Writable bytes where they stand, and how many there are. While the array is there, Python lets nobody move or shorten them."""
    view = memoryview(lent)
    # An empty object may have no address, and the engine asks for one.
    if not view.nbytes:
        return (ctypes.c_ubyte * 1)(), 0
    if view.readonly or not view.c_contiguous:
        raise TypeError(f"{what} must be writable and in one piece")
    return (ctypes.c_ubyte * view.nbytes).from_buffer(view), view.nbytes


def _lend_image(image: Image) -> tuple[Union[bytes, ctypes.Array], int]:
    """The image and its length. Bytes and writable memory are lent where they stand; ctypes gives no address of another read-only
    object, so that a view of one is copied, once."""
    if not isinstance(image, (bytes, bytearray, memoryview)):
        raise TypeError(f"an image must be bytes, a bytearray or a memoryview, not {type(image).__name__}")
    if isinstance(image, bytes):
        # A subclass may have another length and other views than the bytes that are lent.
        return image, bytes.__len__(image)
    view = memoryview(image)
    if view.readonly or not view.c_contiguous:
        return view.tobytes(), view.nbytes
    return _lend_bytes("an image", view)


# Several names of C for the same word.
_WORD_TYPES = {word for word in (ctypes.c_uint64, ctypes.c_ulong, ctypes.c_ulonglong) if ctypes.sizeof(word) == 8}


def _lend_words(what: str, words: Words) -> tuple[ctypes.Array, int]:
    """Words where they stand, and how many there are."""
    is_array = isinstance(words, array.array) and words.typecode == "Q"
    if not is_array and not (isinstance(words, ctypes.Array) and words._type_ in _WORD_TYPES):
        raise TypeError(f"{what} must be array('Q') or a ctypes array of c_uint64, not {type(words).__name__}")
    count = memoryview(words).nbytes // 8
    # An empty array may have no address, or one that is not aligned, and the engine asks for both.
    if not count:
        return (ctypes.c_uint64 * 1)(), 0
    lent = (ctypes.c_uint64 * count).from_buffer(words)
    if ctypes.addressof(lent) % 8:
        raise ValueError(f"{what} must begin at an address that 8 divides")
    return lent, count


def _keep_apart(*lent: object) -> None:
    """Sees that no two pieces of lent memory overlap. What is not lent by ctypes is read-only and so apart from all others."""
    arrays = [piece for piece in lent if isinstance(piece, ctypes.Array)]
    spans = sorted((ctypes.addressof(piece), ctypes.sizeof(piece)) for piece in arrays)
    for (start, size), (next_start, _) in zip(spans, spans[1:]):
        if start + size > next_start:
            raise ValueError("image, frame_words and register_words must not share memory")


class _Call:
    """One of the engine's functions, taken out of a loaded library."""

    symbol: str
    argument_types: Sequence[type]

    def __init__(self, loaded: ctypes.CDLL) -> None:
        try:
            # By its own object: as an attribute of the library it would be shared with whoever else uses that.
            self._function = loaded[self.symbol]
        except AttributeError:
            raise NoLibrary(f"the library lacks {self.symbol}; make it of the engine's own archive") from None
        self._function.restype = ctypes.c_uint64
        self._function.argtypes = self.argument_types

    def _ask(self, *arguments: object) -> tuple[int, list[int]]:
        """Calls a function that answers in words."""
        words = (ctypes.c_uint64 * ANSWER_WORDS)()
        number = self._function(*arguments, words)
        return number, list(words)

    def _refuse(self, allowed: Sequence[type[Refused]], number: int, words: list[int]) -> Exception:
        """The exception for an answer that is not 0."""
        refusal = _REFUSALS.get(number)
        if refusal is None or not issubclass(refusal, tuple(allowed)):
            return self._unlisted(number, words)
        count = len(refusal.fields)
        limit_is_known = refusal is not ProfileError or (words[0] in (0, 1) and words[1] in range(1, 6))
        if any(words[count:]) or not limit_is_known:
            return self._unlisted(number, words)
        return refusal(*words[:count])

    def _unlisted(self, number: int, words: list[int]) -> UnlistedAnswer:
        return UnlistedAnswer(f"{self.symbol} answered {number} with {words}, which its header rules out")


class Validate(_Call):
    """Says whether bytes are an image and its program keeps to a profile.

    A program that is admitted never traps INVALID_REGISTER or INVALID_FUNCTION, whatever it is given to run with.
    """

    symbol = "knit_validate"
    argument_types = (
        ctypes.c_void_p,
        ctypes.c_size_t,
        ctypes.c_uint16,
        ctypes.c_uint16,
        ctypes.c_uint16,
        ctypes.c_uint32,
        ctypes.c_uint64,
        ctypes.c_void_p,
    )

    def __call__(self, image: Image, profile: Profile = Profile()) -> None:
        """Raises ImageFault or NotAdmitted for the first fault; without one the program is admitted."""
        _of_type("profile", profile, Profile)
        lent, length = _lend_image(image)
        number, words = self._ask(lent, length, *profile._numbers())
        if number:
            raise self._refuse([ImageFault, NotAdmitted], number, words)
        if any(words):
            raise self._unlisted(number, words)


class Execute(_Call):
    """Runs an image's entry function in lent memory.

    The program need not be admitted: one that breaks the rules traps when it comes to that. No profile is read; only the limits
    count.
    """

    symbol = "knit_execute"
    argument_types = (
        ctypes.c_void_p,
        ctypes.c_size_t,
        ctypes.c_uint64,
        ctypes.c_uint16,
        ctypes.c_void_p,
        ctypes.c_size_t,
        ctypes.c_void_p,
        ctypes.c_size_t,
        ctypes.c_void_p,
    )

    def __call__(self, image: Image, limits: Limits, room: Room) -> Run:
        """Raises ImageFault, which leaves the room as it was, or FrameRoomError or RegisterRoomError if a frame would begin and the
        room can't hold it; then it holds the state before that."""
        _of_type("limits", limits, Limits)
        _of_type("room", room, Room)
        # Two runs in the same words would each spoil what the other relies on.
        if not room._free.acquire(blocking=False):
            raise RuntimeError("the room is lent to another call; have one for each thread")
        try:
            number, words = self._run(image, limits, room)
        finally:
            room._free.release()
        if number:
            raise self._refuse([ImageFault, FrameRoomError, RegisterRoomError], number, words)
        return self._read(words)

    def _run(self, image: Image, limits: Limits, room: Room) -> tuple[int, list[int]]:
        lent, length = _lend_image(image)
        frames, frame_count = _lend_words("frame_words", room.frame_words)
        registers, register_count = _lend_words("register_words", room.register_words)
        _keep_apart(lent, frames, registers)
        return self._ask(lent, length, *limits._numbers(), frames, frame_count, registers, register_count)

    def _read(self, words: list[int]) -> Run:
        status, kind, payload, fuel_used, digest = words
        value = Value.from_parts(kind, payload)
        known = status in (one.value for one in Status)
        if value is None or not known or (status and value != Value(Kind.UNIT)):
            raise self._unlisted(0, words)
        return Run(Status(status), value, fuel_used, digest)


class Digest(_Call):
    """The digest of a run's words: the values of its status and of its value's kind, the payload and the fuel used.

    A Run has its digest; this is for words that came from elsewhere, and takes any of 64 bits.
    """

    symbol = "knit_digest"
    argument_types = (ctypes.c_uint64,) * 4

    def __call__(self, status: int, kind: int, payload: int, fuel_used: int) -> int:
        words = {"status": status, "kind": kind, "payload": payload, "fuel_used": fuel_used}
        return self._function(*[_number(name, word, 64) for name, word in words.items()])


class EventId(_Call):
    """The identifier of a lesson's event: the lesson in 8 lower-case hex digits, '-', the digest of the run that it shows in 16."""

    symbol = "knit_event_id"
    argument_types = (ctypes.c_uint32, ctypes.c_uint64, ctypes.c_void_p, ctypes.c_size_t, ctypes.c_void_p)

    def __call__(self, lesson: int, digest: int) -> str:
        return self.into(lesson, digest, bytearray(EVENT_ID_BYTES))

    def into(self, lesson: int, digest: int, out: Union[bytearray, memoryview]) -> str:
        """Writes the identifier into the first 25 bytes of out, and gives it back; the rest of them stay as they were.

        Raises IdRoomError, and writes nothing, if there are fewer.
        """
        if not isinstance(out, (bytearray, memoryview)):
            raise TypeError(f"out must be a bytearray or a memoryview, not {type(out).__name__}")
        numbers = _number("lesson", lesson, 32), _number("digest", digest, 64)
        lent, length = _lend_bytes("out", out)
        number, words = self._ask(*numbers, lent, length)
        if number and length < EVENT_ID_BYTES:
            raise self._refuse([IdRoomError], number, words)
        written = bytes(lent[:EVENT_ID_BYTES])
        if number or length < EVENT_ID_BYTES or words != [EVENT_ID_BYTES, 0, 0, 0, 0] or not written.isascii():
            raise self._unlisted(number, words)
        return written.decode("ascii")


class Library:
    """The engine's four functions, out of a shared library: validate, execute, digest and event_id, which are called like
    functions.

    The path is an argument or else stands in the variable KNIT_LIBRARY; one without a slash is looked for where the system keeps
    its libraries. Raises NoLibrary if there is none, if it can't be loaded, or if it lacks a function. An object of this class
    may be shared by threads.
    """

    __slots__ = ("validate", "execute", "digest", "event_id")

    def __init__(self, path: Union[str, os.PathLike, None] = None) -> None:
        named = os.environ.get("KNIT_LIBRARY") if path is None else os.fsdecode(path)
        if not named:
            raise NoLibrary("no library was named; give its path or set the variable KNIT_LIBRARY")
        try:
            loaded = ctypes.CDLL(named)
        except OSError as why:
            raise NoLibrary(f"the library can't be loaded: {why}") from why
        self.validate = Validate(loaded)
        self.execute = Execute(loaded)
        self.digest = Digest(loaded)
        self.event_id = EventId(loaded)
