"""The UC8253/UC8279d e-paper controller and the glass behind it.

A panel takes what goes over the bus and draws what the glass shows:

    import jollanqe
    panel = jollanqe.Panel(jollanqe.Configuration.x3())
    panel.send(0, 0x00, [0x3F])              # tables from the registers
    panel.send(0, 0x04)                      # power on
    panel.advance(panel.deadline())

Times are cycles of the configuration's clock, nanoseconds where it has no other rate. Bytes of commands,
captures, diagnostics and refusals are in the project's docs/FORMAT.md, what a host can get wrong in docs/HOSTS.md.

The model is a shared library, which tools/shared makes. It is looked for where the environment's
JOLLANQE_LIBRARY says, beside this file, in the project's target/shared, and then by the system's
loader. At import the sizes of all that crosses are held to those of include/jollanqe.h, and a panel is
made to see that the library has them too; an ImportError says what does not fit.

Calls of one panel by several threads go one after the other. A call holds the interpreter's lock.
"""

import ctypes
import os
import struct
import threading
from ctypes import POINTER, Structure, c_bool, c_int64, c_size_t, c_uint8, c_uint16, c_uint64
from dataclasses import dataclass
from operator import index
from pathlib import Path

# ---- numbers ----

MOST_SOURCES, MOST_GATES = 800, 600
PLANE_BYTES = 60_000
ROW_NUMBERS, MOST_ROWS = 5, 1_024
EVENT_BYTES, CONFIGURATION_BYTES, TRAILER_BYTES = 10, 312, 8
RATED_BYTES = 320  # a configuration with the rate of the clock behind it
GIGAHERTZ = 1_000_000_000

UC8253, UC8279D = 0, 1
COMMAND, DATA, READ, RESET, ADVANCE, VCOM_RULE = 1, 2, 3, 4, 5, 6
NOTHING, NO_READ = 256, 257

WORDS = (
    "taken",
    "empty panel",
    "oversized panel",
    "swing",
    "frame period",
    "buffer length",
    "foreign record",
    "foreign contents",
    "broken capture",
    "bad event",
    "too many pixels",
    "malformed dump",
    "signals",
    "rate out of range",
)


class Refused(Exception):
    """A call was turned back, and nothing was changed by it. `number` and `word` say why."""

    def __init__(self, number):
        self.number = number
        self.word = WORDS[number] if number < len(WORDS) else ""
        super().__init__(f"refused {number}: {self.word}")


# ---- what crosses ----


class Area(Structure):
    """A rectangle of RAM in pixels, its ends included."""

    _fields_ = [("x0", c_uint16), ("y0", c_uint16), ("x1", c_uint16), ("y1", c_uint16)]


class Pair(Structure):
    """Horizontal and vertical."""

    _fields_ = [("h", c_uint16), ("v", c_uint16)]


class Cursor(Structure):
    """Where the next pixel byte goes."""

    _fields_ = [("x", c_uint16), ("y", c_uint16)]


class Geometry(Structure):
    """How the glass's pixels sit on the controller's lines."""

    _fields_ = [
        ("sources", c_uint16),
        ("gates", c_uint16),
        ("rows_reversed", c_bool),
        ("columns_reversed", c_bool),
    ]


class Optics(Structure):
    """How the glass answers the waveform."""

    _fields_ = [
        ("full_swing", c_uint64),
        ("positive_drives_black", c_bool),
        ("initial_gray", c_uint8),
    ]


class Timing(Structure):
    """How long each operation keeps BUSY_N low, the frame period of each code of 30, and the clock's rate."""

    _fields_ = [
        ("power_on", c_uint64),
        ("power_off", c_uint64),
        ("deep_sleep", c_uint64),
        ("soft_reset", c_uint64),
        ("hardware_reset", c_uint64),
        ("frame_period", c_uint64 * 32),
        ("rate", c_uint64),
    ]


class Registers(Structure):
    """The registers, but for the tables: 00, 01, 30, 50, 61, 65, 90, and whether 91 is in force."""

    _fields_ = [
        ("psr", c_uint8 * 2),
        ("power", c_uint8 * 5),
        ("pll", c_uint8),
        ("cdi", c_uint8 * 2),
        ("resolution", Pair),
        ("start", Pair),
        ("window", Area),
        ("partial", c_bool),
    ]


class Luts(Structure):
    """The bytes of the five tables as they were loaded, VCOM's first."""

    _fields_ = [("bytes", c_uint8 * 42 * 5)]


class Group(Structure):
    """One group of a table: four phases, run as often as it says."""

    _fields_ = [("codes", c_uint8 * 4), ("frames", c_uint8 * 4), ("repeats", c_uint8)]


class Levels(Structure):
    """Supply levels in millivolts; VDL lies so far below zero."""

    _fields_ = [("vdh", c_uint16), ("vdl", c_uint16), ("vdhr", c_uint16)]


class Waveform(Structure):
    """What the refresh that was started last drives with."""

    _fields_ = [
        ("tables", Group * 7 * 5),
        ("levels", Levels),
        ("frame_ns", c_uint64),
        ("vcom_by_frame", c_bool),
    ]


class Log(Structure):
    """How many rows of diagnostics are stored, and how many found no room."""

    _fields_ = [("stored", c_uint16), ("dropped", c_uint64)]


class Active(Structure):
    """The command under way where `current` of the record is 2, else zeros."""

    _fields_ = [
        ("received", c_uint16),
        ("read", c_uint16),
        ("least", c_uint16),
        ("most", c_uint16),
        ("cursor", Cursor),
        ("command", c_uint8),
        ("kind", c_uint8),
        ("params", c_uint8),
        ("extra_reported", c_bool),
        ("past_reported", c_bool),
    ]


class Operation(Structure):
    """What keeps BUSY_N low: `work` is 0 nothing, 1 power on, 2 power off, 3 deep sleep, 4 soft
    reset, 5 hardware reset, 6 refresh."""

    _fields_ = [
        ("started", c_uint64),
        ("until", c_uint64),
        ("area", Area),
        ("work", c_uint8),
        ("kind", c_uint8),
    ]


class Image(Structure):
    """The head of the last picture: `kind` is 0 no refresh yet, 1 full, 2 partial."""

    _fields_ = [
        ("generation", c_uint64),
        ("started", c_uint64),
        ("at", c_uint64),
        ("width", c_uint16),
        ("height", c_uint16),
        ("kind", c_uint8),
        ("interrupted", c_bool),
    ]


class Record(Structure):
    """The controller. include/jollanqe.h says what each field means."""

    _fields_ = [
        ("panel", Geometry),
        ("optics", Optics),
        ("timing", Timing),
        ("regs", Registers),
        ("luts", Luts),
        ("waveform", Waveform),
        ("active", Active),
        ("operation", Operation),
        ("image", Image),
        ("log", Log),
        ("now", c_uint64),
        ("variant", c_uint8),
        ("ambient", c_uint8),
        ("power", c_uint8),
        ("powered", c_bool),
        ("data_flag", c_bool),
        ("current", c_uint8),
        ("made_by_frame", c_bool),
        ("vcom_by_frame", c_bool),
    ]


class Given(Structure):
    """What a call gives back."""

    _fields_ = [("chip", Record), ("refused", c_uint8), ("answer", c_uint16)]


class Asked(Structure):
    """What a question gives back."""

    _fields_ = [("value", c_uint64), ("refused", c_uint8), ("known", c_bool)]


# as the assertions of include/jollanqe.h have them
SIZES = {
    Area: 8,
    Pair: 4,
    Cursor: 4,
    Geometry: 6,
    Optics: 16,
    Timing: 304,
    Registers: 28,
    Luts: 210,
    Group: 9,
    Levels: 6,
    Waveform: 344,
    Log: 16,
    Active: 18,
    Operation: 32,
    Image: 32,
    Record: 1_032,
    Given: 1_040,
    Asked: 16,
}


def _leaves(of, at=0):
    """The numbers of a structure: where each stands, and its type."""
    if issubclass(of, Structure):
        for name, kind in of._fields_:
            yield from _leaves(kind, at + getattr(of, name).offset)
    elif issubclass(of, ctypes.Array):
        for entry in range(of._length_):
            yield from _leaves(of._type_, at + entry * ctypes.sizeof(of._type_))
    else:
        yield at, of


_BOOLS = tuple(at for at, kind in _leaves(Record) if kind is c_bool)
_FIELDS = bytearray(ctypes.sizeof(Record))
for _at, _kind in _leaves(Record):
    _FIELDS[_at : _at + ctypes.sizeof(_kind)] = b"\xff" * ctypes.sizeof(_kind)
_FIELDS = int.from_bytes(_FIELDS, "little")

# ---- the library ----

_NAME = "libjollanqe.so"
_SLICE_TYPES = {"B": c_uint8, "H": c_uint16, "q": c_int64, "Q": c_uint64}


def _slice(letter):
    return [POINTER(_SLICE_TYPES[letter]), c_size_t]


_FIVE = [kind for letter in "BBqBQ" for kind in _slice(letter)]
_CALLS = {
    "jollanqe_make": (Given, _slice("B") + _FIVE),
    "jollanqe_command": (Given, [Record, c_uint64, c_uint8] + _FIVE),
    "jollanqe_data": (Given, [Record, c_uint64, c_uint8] + _FIVE),
    "jollanqe_read": (Given, [Record, c_uint64] + _FIVE),
    "jollanqe_reset": (Given, [Record, c_uint64, c_bool] + _FIVE),
    "jollanqe_advance": (Given, [Record, c_uint64] + _FIVE),
    "jollanqe_vcom_rule": (Given, [Record, c_uint64, c_bool] + _FIVE),
    "jollanqe_run": (Given, [Record] + _slice("B") + _slice("H") + _FIVE),
    "jollanqe_take": (Given, [Record] + _slice("Q")),
    "jollanqe_busy": (Asked, [Record, c_uint64]),
    "jollanqe_deadline": (Asked, [Record]),
    "jollanqe_bit": (Asked, [Record] + _slice("B") + [c_uint16, c_uint16]),
    "jollanqe_picture": (Asked, [Record] + _slice("q") + _slice("H") + [c_uint16]),
}


def _places():
    named = os.environ.get("JOLLANQE_LIBRARY")
    if named:
        return [named]
    here = Path(__file__).resolve().parent
    paths = [here / _NAME, here.parent / "target" / "shared" / _NAME]
    return [str(path) for path in paths if path.exists()] or [_NAME]


def _load():
    try:
        library = ctypes.PyDLL(_places()[0])
        for name, (result, arguments) in _CALLS.items():
            call = getattr(library, name)
            call.restype, call.argtypes = result, arguments
    except (OSError, AttributeError) as error:
        raise ImportError(f"{error}: make it by tools/shared, or name it by JOLLANQE_LIBRARY") from None
    return library


# ---- arguments ----


def _number(value, most, what):
    """An integer from 0 to `most`: ctypes would wrap any other without a word."""
    number = index(value)
    if not 0 <= number <= most:
        raise ValueError(f"{what} {number} is not in 0 .. {most}")
    return number


def _time(at):
    return _number(at, 2**64 - 1, "time")


def _byte(value):
    return _number(value, 255, "byte")


def _bytes(data):
    """Bytes of a buffer or of integers from 0 to 255. (bytes(5) would be five zeros.)"""
    if hasattr(data, "__index__"):
        raise TypeError("bytes are wanted, not a number")
    return bytes(data)


class _Slice:
    """A buffer as a pointer and a length; its owner cannot be resized from now on."""

    def __init__(self, letter, owner, what):
        kind = _SLICE_TYPES[letter]
        size = ctypes.sizeof(kind)
        with memoryview(owner) as view:
            if view.readonly or not view.c_contiguous:
                raise ValueError(f"{what}: the buffer is read-only or not in one piece")
            length, rest = divmod(view.nbytes, size)
        if rest:
            raise ValueError(f"{what}: {length * size + rest} bytes are no whole entries of {size}")
        # an empty slice has an address of its own
        self.array = (kind * length).from_buffer(owner if length else bytearray(size))
        self.start = ctypes.addressof(self.array)
        self.end = self.start + length * size
        if self.start % size:
            raise ValueError(f"{what}: the buffer's address is no multiple of {size}")
        self.lent = (ctypes.cast(self.array, POINTER(kind)), length)


def _apart(slices):
    """No two of them overlap."""
    spans = sorted((one.start, one.end) for one in slices if one.start < one.end)
    if any(before[1] > after[0] for before, after in zip(spans, spans[1:])):
        raise ValueError("two of the buffers overlap")


def _held(given):
    """What a call gave, if it was not refused."""
    if given.refused:
        raise Refused(given.refused)
    return given


# ---- configurations and captures ----

_LAYOUT = struct.Struct("<BBHHBB38Q")


@dataclass
class Configuration:
    """What a panel is made from; docs/FORMAT.md says what each value means.

    Numbers that their bytes cannot hold are a ValueError; of the others making refuses some.
    """

    sources: int
    gates: int
    full_swing: int
    frame_periods: tuple
    variant: int = UC8253
    rows_reversed: bool = False
    columns_reversed: bool = False
    positive_drives_black: bool = False
    initial_grey: int = 255
    ambient: int = 25
    power_on: int = 0
    power_off: int = 0
    deep_sleep: int = 0
    soft_reset: int = 0
    hardware_reset: int = 0
    rate: int = GIGAHERTZ
    vcom_by_frame: bool = False

    @classmethod
    def x3(cls, variant=UC8253):
        """The X3: 792 by 528, white, 25 degrees Celsius. Most of it is assumed, not measured."""
        return cls(
            variant=variant,
            rows_reversed=True,
            positive_drives_black=True,
            sources=792,
            gates=528,
            full_swing=6_000_000_000_000,
            power_on=127_000_000,
            power_off=30_000_000,
            deep_sleep=1_000_000,
            soft_reset=50_000,
            hardware_reset=1_000_000,
            frame_periods=tuple(1_000_000_000 // (200 if code == 31 else 5 * (code + 1)) for code in range(32)),
        )

    def to_bytes(self):
        """The 312 bytes of a capture; with a rate other than 1 GHz behind them 320."""
        periods = tuple(self.frame_periods)
        if len(periods) != 32:
            raise ValueError(f"{len(periods)} frame periods, not 32")
        if self.variant not in (UC8253, UC8279D):
            raise ValueError(f"variant {self.variant} is neither {UC8253} (UC8253) nor {UC8279D} (UC8279d)")
        flags = bool(self.rows_reversed) | bool(self.columns_reversed) << 1
        flags |= bool(self.positive_drives_black) << 2 | bool(self.vcom_by_frame) << 3
        if not -128 <= index(self.ambient) <= 127:
            raise ValueError(f"ambient {self.ambient} is no signed byte")
        rate = _number(self.rate, 2**64 - 1, "rate")
        return _LAYOUT.pack(
            self.variant,
            flags,
            _number(self.sources, 65_535, "sources"),
            _number(self.gates, 65_535, "gates"),
            _number(self.initial_grey, 255, "initial grey"),
            self.ambient & 0xFF,
            _number(self.full_swing, 2**64 - 1, "full swing"),
            *map(_time, (self.power_on, self.power_off, self.deep_sleep, self.soft_reset, self.hardware_reset)),
            *map(_time, periods),
        ) + (b"" if rate == GIGAHERTZ else rate.to_bytes(8, "little"))

    @classmethod
    def from_bytes(cls, data):
        """The configuration of 312 bytes, or 320. Refused by 9 where its variant or a flag is not listed."""
        rate = int.from_bytes(data[CONFIGURATION_BYTES:], "little") if len(data) == RATED_BYTES else GIGAHERTZ
        data = data[:CONFIGURATION_BYTES] if len(data) == RATED_BYTES else data
        variant, flags, sources, gates, grey, ambient, swing, *times = _LAYOUT.unpack(data)
        if variant > UC8279D or flags > 15:
            raise Refused(9)
        on, off, sleep, soft, hard, *periods = times
        return cls(
            variant=variant,
            rows_reversed=bool(flags & 1),
            columns_reversed=bool(flags & 2),
            positive_drives_black=bool(flags & 4),
            sources=sources,
            gates=gates,
            initial_grey=grey,
            ambient=ambient - 256 if ambient > 127 else ambient,
            full_swing=swing,
            power_on=on,
            power_off=off,
            deep_sleep=sleep,
            soft_reset=soft,
            hardware_reset=hard,
            frame_periods=tuple(periods),
            rate=rate,
            vcom_by_frame=bool(flags & 8),
        )


def _whole(events):
    events = _bytes(events)
    if len(events) % EVENT_BYTES:
        raise ValueError(f"{len(events)} bytes are no whole events of {EVENT_BYTES}")
    return events


def _unlisted(events):
    """The first event whose kind or value is not listed, if any."""
    least, most = (0, 0, 0, 0, 0, 0, 1), (-1, 255, 255, 0, 1, 0, 2)
    for at, (kind, value) in enumerate(zip(events[8::EVENT_BYTES], events[9::EVENT_BYTES])):
        if kind > VCOM_RULE or not least[kind] <= value <= most[kind]:
            return at
    return None


def read_capture(file):
    """The configuration and the events' bytes of a capture file.

    Refused by 8 where the file is broken, by 9 where something in it is not listed. Unlike the
    program, this takes files of any length.
    """
    file = _bytes(file)
    if len(file) < CONFIGURATION_BYTES + TRAILER_BYTES:
        raise Refused(8)
    offset, count = struct.unpack("<II", file[-TRAILER_BYTES:])
    tail = len(file) - offset - TRAILER_BYTES
    if offset != EVENT_BYTES * count or tail not in (CONFIGURATION_BYTES, RATED_BYTES):
        raise Refused(8)
    configuration = Configuration.from_bytes(file[offset:-TRAILER_BYTES])
    events = file[:offset]
    if _unlisted(events) is not None:
        raise Refused(9)
    return configuration, events


def write_capture(configuration, events=b""):
    """A capture file of a configuration and events' bytes, whole events (docs/FORMAT.md)."""
    events = _whole(events)
    return events + configuration.to_bytes() + struct.pack("<II", len(events), len(events) // EVENT_BYTES)


def event(at, kind, value=0):
    """The ten bytes of an event."""
    return struct.pack("<QBB", _time(at), _byte(kind), _byte(value))


# ---- panels ----

_ORDER = (("old", "B"), ("new", "B"), ("states", "q"), ("picture", "B"), ("rows", "Q"))


class Panel:
    """A panel behind its controller.

    `configuration` is a Configuration. The five buffers are made by the panel, or handed in by name:
    bytearrays, array.arrays, ctypes arrays or any other writable buffers in one piece, `old` and
    `new` of 60,000 bytes, `states` ('q') and `picture` of sources x gates entries, `rows`
    ('Q') of 5,120. `panel.old`, `panel.picture` and so on show them as ctypes arrays; a host may look
    at them at any time and change them between calls. The library tests their lengths and entries.

    A refused call raises Refused. Of a panel whose buffers and record nobody else changes, only
    making is ever refused (a theorem of the library), and a picture at a top into a buffer of another length.
    """

    def __init__(self, configuration, **buffers):
        file = write_capture(configuration)
        pixels = min(configuration.sources * configuration.gates, MOST_SOURCES * MOST_GATES)
        lengths = (PLANE_BYTES, PLANE_BYTES, 8 * pixels, pixels, 8 * ROW_NUMBERS * MOST_ROWS)
        unknown = set(buffers) - {name for name, _ in _ORDER}
        if unknown:
            raise TypeError(f"no such buffer: {', '.join(sorted(unknown))}")
        slices = []
        for (name, letter), length in zip(_ORDER, lengths):
            owner = buffers.get(name)
            slices.append(_Slice(letter, bytearray(length) if owner is None else owner, name))
        _apart(slices)
        self._slices = slices
        self._five = [part for one in slices for part in one.lent]
        self._lock = threading.Lock()
        data = (c_uint8 * len(file)).from_buffer_copy(file)
        self._record = _held(_library.jollanqe_make(data, len(file), *self._five)).chip

    # -- the calls --

    def _call(self, name, *arguments):
        """A call that is lent the five buffers. The record that comes back is kept, refused or not."""
        with self._lock:
            given = getattr(_library, name)(self._record, *arguments, *self._five)
            self._record = given.chip
        return _held(given).answer

    def command(self, at, command):
        """A command byte (D/C# low) at a time."""
        self._call("jollanqe_command", _time(at), _byte(command))

    def data(self, at, byte):
        """A data byte (D/C# high) at a time."""
        self._call("jollanqe_data", _time(at), _byte(byte))

    def read(self, at):
        """The host reads a byte: None where the controller drives nothing."""
        answer = self._call("jollanqe_read", _time(at))
        return None if answer == NOTHING else answer

    def reset(self, at, asserted):
        """RST_N falls (a true value: asserted) or rises."""
        self._call("jollanqe_reset", _time(at), bool(asserted))

    def advance(self, at):
        """Time passes: what has come to its end by then ends."""
        self._call("jollanqe_advance", _time(at))

    def vcom_rule(self, at, by_frame):
        """Time passes, and VCOM goes by frame (True: rule 2) or by phase (False: rule 1) from the next refresh on.

        One that runs ends by the rule that it was started by; no command is closed. A rule's number is a TypeError."""
        if not isinstance(by_frame, bool):
            raise TypeError(f"by frame: {by_frame!r} is neither True (rule 2) nor False (rule 1)")
        self._call("jollanqe_vcom_rule", _time(at), by_frame)

    def send(self, at, command, data=b""):
        """A command with its data bytes, all at one time, in one call of the library."""
        data = _bytes(data)
        events = bytearray(event(at, DATA)) * (1 + len(data))
        events[8] = COMMAND
        events[9::EVENT_BYTES] = bytes([_byte(command)]) + data
        self.run(events)

    def run(self, events):
        """Events of ten bytes, one after the other in one call; what each answers, as a list.

        An answer is the byte of a read, 256 where the controller drove nothing, 257 for an event that
        is no read. A ValueError where the bytes are no whole events or one is not listed: nothing was
        run then. Where events were refused, Refused has the first one's number, and `answers` all of
        them: by 7 the others were run.
        """
        events = _whole(events)
        wrong = _unlisted(events)
        if wrong is not None:
            kind, value = events[EVENT_BYTES * wrong + 8 : EVENT_BYTES * wrong + 10]
            raise ValueError(f"event {wrong}: kind {kind} with value {value} is not listed")
        count = len(events) // EVENT_BYTES
        data = (c_uint8 * max(1, len(events))).from_buffer_copy(events or b"\0")
        answers = (c_uint16 * max(1, count))()
        try:
            self._call("jollanqe_run", data, len(events), answers, count)
        except Refused as refused:
            refused.answers = answers[:count]
            raise
        return answers[:count]

    def take(self):
        """Takes the stored rows of diagnostics, oldest first: tuples of time, kind, three fields."""
        with self._lock:
            given = _held(_library.jollanqe_take(self._record, *self._slices[4].lent))
            self._record = given.chip
        numbers = self.rows[: ROW_NUMBERS * given.answer]
        return [tuple(numbers[at : at + ROW_NUMBERS]) for at in range(0, len(numbers), ROW_NUMBERS)]

    # -- the questions --

    def busy(self, at):
        """Whether BUSY_N is low at a time."""
        return _held(_library.jollanqe_busy(self._record, _time(at))).value == 1

    def deadline(self):
        """When what runs ends; None where nothing runs."""
        asked = _held(_library.jollanqe_deadline(self._record))
        return asked.value if asked.known else None

    def bit(self, plane, x, y):
        """A pixel of the RAM, of the plane "old" or "new"; None past column 799 or row 599."""
        if plane not in ("old", "new"):
            raise ValueError(f"plane {plane!r} is neither 'old' nor 'new'")
        lent = self._slices[0 if plane == "old" else 1].lent
        place = _number(x, 65_535, "column"), _number(y, 65_535, "row")
        asked = _held(_library.jollanqe_bit(self._record, *lent, *place))
        return bool(asked.value) if asked.known else None

    def picture_at(self, top, wide=None):
        """The picture at a top of its own, 0 black to `top` white; a top of 0 stands for 255.

        The greys come as a list, or go into `wide` where it is handed in: a writable buffer of sources x gates
        entries of 16 bits, such as an array.array('H'). They are drawn from the states: before the first
        refresh has ended, at top 255 too, they may be others than `picture` has.
        """
        top = _number(top, 65_535, "top")
        lent = _Slice("H", bytearray(2 * len(self.states)) if wide is None else wide, "wide")
        _apart([*self._slices, lent])
        with self._lock:
            _held(_library.jollanqe_picture(self._record, *self._slices[2].lent, *lent.lent, top))
        return list(lent.array) if wide is None else None

    # -- what is shown --

    old = property(lambda self: self._slices[0].array, doc="The plane that 10 (DTM1) writes.")
    new = property(lambda self: self._slices[1].array, doc="The plane that 13 (DTM2) writes.")
    states = property(lambda self: self._slices[2].array, doc="Where each pixel stands, 0 to the full swing.")
    picture = property(lambda self: self._slices[3].array, doc="The greys of the last picture, from the top left.")
    rows = property(lambda self: self._slices[4].array, doc="The stored diagnostics, five numbers a row.")

    @property
    def record(self):
        """A copy of the controller's record. A Record or its bytes may be put in its place: a
        ValueError where a bool of it is another byte than 0 and 1, which the library must not see.
        Whatever else is wrong with it, the next call tests."""
        numbers = int.from_bytes(bytes(self._record), "little") & _FIELDS  # no bytes between fields
        return Record.from_buffer_copy(numbers.to_bytes(ctypes.sizeof(Record), "little"))

    @record.setter
    def record(self, value):
        data = memoryview(value).tobytes()
        if len(data) != ctypes.sizeof(Record):
            raise ValueError(f"{len(data)} bytes are no record of {ctypes.sizeof(Record)}")
        wrong = [at for at in _BOOLS if data[at] > 1]
        if wrong:
            raise ValueError(f"byte {wrong[0]} of the record is a bool and holds {data[wrong[0]]}")
        self._record = Record.from_buffer_copy(data)

    @property
    def image(self):
        """A copy of the head of the last picture: its size, generation, kind and times."""
        return Image.from_buffer_copy(self._record.image)

    @property
    def stored(self):
        """How many rows are stored; `take` hands them out."""
        return self._record.log.stored

    @property
    def dropped(self):
        """How many rows found no room."""
        return self._record.log.dropped

    @property
    def now(self):
        """The clock: the largest time so far."""
        return self._record.now

    def row(self, y):
        """The greys of a row of the picture, 0 black to 255 white; empty past the last."""
        width = self._record.image.width
        start = _number(y, 65_535, "row") * width
        return bytes(self.picture[start : start + width])

    def graymap(self, top=None):
        """The last picture as a binary graymap (Netpbm P5); with a top, `picture_at` it: its maxval is the
        top, and a pixel has a byte up to 255, else two, the higher first."""
        image = self._record.image
        if top is None:
            return b"P5\n%d %d\n255\n" % (image.width, image.height) + bytes(self.picture)
        greys = self.picture_at(top)
        maxval = top or 255
        samples = bytes(greys) if maxval <= 255 else struct.pack(f">{len(greys)}H", *greys)
        return b"P5\n%d %d\n%d\n" % (image.width, image.height, maxval) + samples


def _shows():
    """What a small panel shows, and what it must show: its own numbers, each in its place."""
    configuration = Configuration(
        sources=3,
        gates=2,
        full_swing=2**62 + 1,
        frame_periods=tuple(range(101, 133)),
        variant=UC8279D,
        columns_reversed=True,
        initial_grey=77,
        ambient=-5,
        power_on=11,
        power_off=12,
        deep_sleep=13,
        soft_reset=14,
        hardware_reset=15,
        rate=32_768,
        vcom_by_frame=True,
    )
    panel = Panel(configuration)
    panel.command(9, 0xFF)
    panel.vcom_rule(9, False)
    record, timing = panel.record, panel.record.timing
    seen = [record.panel.sources, record.panel.gates, record.panel.rows_reversed, record.panel.columns_reversed]
    seen += [record.optics.full_swing, record.optics.positive_drives_black, record.optics.initial_gray]
    seen += [timing.power_on, timing.power_off, timing.deep_sleep, timing.soft_reset, timing.hardware_reset]
    seen += [*timing.frame_period, timing.rate]
    seen += [record.image.width, record.image.height, record.log.stored, record.now, record.variant, record.ambient]
    seen += [record.made_by_frame, record.vcom_by_frame]
    seen += [record.current, list(panel.picture), panel.read(9), panel.deadline(), panel.take()]
    must = [3, 2, False, True, 2**62 + 1, False, 77, 11, 12, 13, 14, 15, *range(101, 133), 32_768]
    must += [3, 2, 1, 9, 1, 251, True, False, 1, [77] * 6, None, None, [(9, 1, 255, 0, 0)]]
    return seen, must


def _agree():
    """The structures above are the header's and the library's."""
    for kind, size in SIZES.items():
        if ctypes.sizeof(kind) != size:
            raise ImportError(f"{kind.__name__} has {ctypes.sizeof(kind)} bytes here and {size} in jollanqe.h")
    try:
        seen, must = _shows()
    except (Refused, ValueError) as error:
        seen, must = error, None
    if seen != must:
        raise ImportError(f"{_places()[0]} is of another version than this file")


_library = _load()
_agree()
