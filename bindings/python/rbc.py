"""A live desk for Python 3, over librbc.so by ctypes.

    with rbc.Desk(track) as desk:
        reply = desk.feed(b"enrol 1071 2000")

A fault is an exception, and changes nothing: NoMemory where the library got no memory, Fault otherwise. After either
the desk goes on, and the line may be fed again. A refused line is no fault: `reply.refused` has its code. A desk is for
one thread at a time.

The library is librbc.so.3 of the folder that the variable RBC_LIBRARY names, or else the one that the loader finds.
rbc.h says what each field means. live.py and desk.py are whole programs.
"""

import ctypes
import os
from collections import namedtuple

VERSION = 3  # RBC_VERSION of the rbc.h that the structs below repeat

DONE, MEMORY, NOT_NOW, ROOM, VERSION_OTHER, NOT_UTF8 = range(6)
TRACK_TEXT, TRACK_SHAPE, TRACK_LINES, TRACK_GROUPS, TRACK_LENGTH, TRACK_OFF_LINE, TRACK_TWICE = range(10, 17)
ALARMS = ("place", "stop", "restriction", "answer")  # RBC_ALARM_PLACE and so on
WAYS = ("down", "up", "both")  # RBC_DOWN and so on
WAITS = (  # RBC_WAITS_CONDITIONAL_STOP and so on
    "conditional stop",
    "unconditional stop",
    "restriction",
    "revocation of a stop",
    "revocation of a restriction",
)

Message = namedtuple("Message", "engine bytes")
Reply = namedtuple("Reply", "refused messages")  # refused is 0 where the line was accepted
Alarm = namedtuple("Alarm", "engine kind number")  # kind is one of ALARMS; number is 0 at "place"
Train = namedtuple("Train", "engine length stamp place stops restrictions")  # place is None if it is not known
Place = namedtuple("Place", "line from_ to facing")  # facing is "down" or "up"
StopSegment = namedtuple("StopSegment", "number line from_ to")
Restriction = namedtuple("Restriction", "number line from_ to ways speed front")  # ways is one of WAYS
Outstanding = namedtuple("Outstanding", "engine kind number identifier stamp")  # kind is one of WAITS
Report = namedtuple("Report", "refused warnings text")  # refused is 0 if the text is a track


class Fault(Exception):
    """A call was not done: `code` is NOT_NOW or another number of rbc.h."""

    def __init__(self, code):
        super().__init__(f"fault {code} of rbc.h")
        self.code = code


class NoMemory(Fault, MemoryError):
    """The library got no memory. A MemoryError that is no NoMemory is Python's own: the line may have been taken."""


class _Desk(ctypes.Structure):
    _fields_ = [("version", ctypes.c_uint8), ("open", ctypes.c_uint8), ("memory", ctypes.c_void_p)]


class _Message(ctypes.Structure):
    _fields_ = [("engine", ctypes.c_uint32), ("length", ctypes.c_uint32), ("bytes", ctypes.c_uint8 * 1024)]


class _Answer(ctypes.Structure):
    _fields_ = [("refused", ctypes.c_uint32), ("count", ctypes.c_size_t)]


class _Alarm(ctypes.Structure):
    _fields_ = [("engine", ctypes.c_uint32), ("kind", ctypes.c_uint32), ("number", ctypes.c_uint32)]


class _Train(ctypes.Structure):
    _fields_ = [
        (name, ctypes.c_uint32)
        for name in ("engine", "length", "stamp", "placed", "line", "from_", "to", "facing", "stops", "restrictions")
    ]


class _StopSegment(ctypes.Structure):
    _fields_ = [(name, ctypes.c_uint32) for name in StopSegment._fields]


class _Restriction(ctypes.Structure):
    _fields_ = [(name, ctypes.c_uint32) for name in Restriction._fields]


class _Outstanding(ctypes.Structure):
    _fields_ = [(name, ctypes.c_uint32) for name in Outstanding._fields]


class _Report(ctypes.Structure):
    _fields_ = [("refused", ctypes.c_uint32), ("warnings", ctypes.c_size_t), ("count", ctypes.c_size_t)]


# each function of rbc.h, with what it is given; each answers a number
_DESK, _BYTES, _SIZE = ctypes.POINTER(_Desk), ctypes.c_char_p, ctypes.c_size_t
_FUNCTIONS = {
    "rbc_open": (_DESK, _BYTES, _SIZE),
    "rbc_feed": (_DESK, _BYTES, _SIZE, ctypes.POINTER(_Message), _SIZE, ctypes.POINTER(_Answer)),
    "rbc_alarms": (_DESK, ctypes.POINTER(_Alarm), _SIZE, ctypes.POINTER(_SIZE)),
    "rbc_trains": (_DESK, ctypes.POINTER(_Train), _SIZE, ctypes.POINTER(_SIZE)),
    "rbc_stops": (_DESK, ctypes.POINTER(_StopSegment), _SIZE, ctypes.POINTER(_SIZE)),
    "rbc_restrictions": (_DESK, ctypes.POINTER(_Restriction), _SIZE, ctypes.POINTER(_SIZE)),
    "rbc_outstanding": (_DESK, ctypes.POINTER(_Outstanding), _SIZE, ctypes.POINTER(_SIZE)),
    "rbc_explain_line": (_DESK, _BYTES, _SIZE, ctypes.POINTER(ctypes.c_uint8), _SIZE, ctypes.POINTER(_SIZE)),
    "rbc_check": (_BYTES, _SIZE, ctypes.POINTER(ctypes.c_uint8), _SIZE, ctypes.POINTER(_Report)),
    "rbc_rules": (),
    "rbc_close": (_DESK,),
}


def _library():
    library = ctypes.CDLL(os.path.join(os.environ.get("RBC_LIBRARY", ""), f"librbc.so.{VERSION}"))
    for name, words in _FUNCTIONS.items():
        getattr(library, name).argtypes = words
        getattr(library, name).restype = ctypes.c_uint32
    return library


_rbc = _library()


def _done(code):
    if code != DONE:
        raise NoMemory(code) if code == MEMORY else Fault(code)


def _message(sent):
    return Message(sent.engine, bytes(sent.bytes)[: sent.length])


def _bytes_of(text):
    return text.encode() if isinstance(text, str) else bytes(text)


def _all(call, out):
    """What a call gives, in `out` or in more room, until there is room for all; and how much of the room counts."""
    while True:
        code, count = call(out, len(out))
        _done(code)
        if count <= len(out):
            return out, count
        out = (out._type_ * count)()


def _text(call):
    out, count = _all(call, (ctypes.c_uint8 * 0)())
    return bytes(out[:count]).decode()


def rules():
    """The number of the rules, as `dispatch --version` tells it."""
    return _rbc.rbc_rules()


def check(track):
    """The Report of `dispatch check` on the text of a track: bytes, or a string."""
    track, report = _bytes_of(track), _Report()

    def call(out, room):
        return _rbc.rbc_check(track, len(track), out, room, report), report.count

    text = _text(call)
    return Report(report.refused, report.warnings, text)


class Desk:
    """A desk that is open until `close`, the end of its `with`, or its own end."""

    def __init__(self, track):
        """Opens a desk on the text of a track: bytes, or a string."""
        track = _bytes_of(track)
        self._raw = _Desk(VERSION, 0, None)
        self._out, self._rooms = (_Message * 0)(), {}
        _done(_rbc.rbc_open(self._raw, track, len(track)))

    def feed(self, line):
        """Feeds one line, bytes without the line feed. Returns its Reply."""
        line, answer = bytes(line), _Answer()
        while (code := _rbc.rbc_feed(self._raw, line, len(line), self._out, len(self._out), answer)) == ROOM:
            self._out = (_Message * answer.count)()
        _done(code)
        return Reply(answer.refused, [_message(sent) for sent in self._out[: answer.count]])

    def _list(self, function, kind):
        """The list that a function of rbc.h gives."""
        found = ctypes.c_size_t()
        room = self._rooms.get(kind, (kind * 0)())
        room, count = _all(lambda out, room: (function(self._raw, out, room, found), found.value), room)
        self._rooms[kind] = room
        return room[:count]

    def alarms(self):
        """The alarms that stand: engines ascending, those of one train by kind and number."""
        found = self._list(_rbc.rbc_alarms, _Alarm)
        return [Alarm(alarm.engine, ALARMS[alarm.kind], alarm.number) for alarm in found]

    def trains(self):
        """The trains that are enrolled: engines ascending."""
        return [
            Train(
                train.engine,
                train.length,
                train.stamp,
                Place(train.line, train.from_, train.to, WAYS[train.facing]) if train.placed else None,
                train.stops,
                train.restrictions,
            )
            for train in self._list(_rbc.rbc_trains, _Train)
        ]

    def stops(self):
        """The segments of the active stops: numbers ascending, those of one stop as they were given."""
        found = self._list(_rbc.rbc_stops, _StopSegment)
        return [StopSegment(one.number, one.line, one.from_, one.to) for one in found]

    def restrictions(self):
        """The active restrictions: numbers ascending."""
        found = self._list(_rbc.rbc_restrictions, _Restriction)
        return [
            Restriction(one.number, one.line, one.from_, one.to, WAYS[one.ways], one.speed, one.front) for one in found
        ]

    def outstanding(self):
        """What waits for an answer or an acknowledgement: engines ascending; of a train its stop identifiers first."""
        found = self._list(_rbc.rbc_outstanding, _Outstanding)
        return [Outstanding(one.engine, WAITS[one.kind], one.number, one.identifier, one.stamp) for one in found]

    def explain(self, line):
        """Why the desk refuses a line, in words. Nothing if it would accept the line."""
        line, count = bytes(line), ctypes.c_size_t()

        def call(out, room):
            return _rbc.rbc_explain_line(self._raw, line, len(line), out, room, count), count.value

        return _text(call)

    def close(self):
        """Gives the desk's memory back. A later call raises Fault with NOT_NOW; to close it again does nothing."""
        code = _rbc.rbc_close(self._raw)
        if code != NOT_NOW:
            _done(code)

    def __enter__(self):
        return self

    def __exit__(self, *raised):
        self.close()

    def __del__(self):
        if hasattr(self, "_raw"):
            _rbc.rbc_close(self._raw)
