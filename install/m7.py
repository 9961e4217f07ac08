"""The M7 engine for Python: a table of macros that rewrites lines of text.

    import m7

    song = m7.Song(open("song.m7", "rb").read())
    for line in open("song.txt", "rb"):
        try:
            out = song.feed(line.rstrip(b"\\n"))
        except m7.Refused as refused:
            print(refused)
        else:
            if out is not None:
                print(out.decode())

Lines and macro files are bytes; what they mean is said in m7.h and in
LANGUAGE.md. This file needs Python 3.6 or newer and the shared object of
the library: the one that was installed with it, or the one that the environment
names in M7_LIBRARY. A Song belongs to one thread at a time; different songs may
run on different threads at once.
"""

import collections
import ctypes
import os
import struct

OUT, WITHHELD, CONTROL = 1, 2, 3
BUDGET = 10000


def _find():
    named = os.environ.get("M7_LIBRARY")
    here = os.path.dirname(os.path.abspath(__file__))
    return named or os.path.join(here, os.pardir, "libm7.so.3")


class _Answer(ctypes.Structure):
    _fields_ = [(name, ctypes.c_uint32) for name in ("number", "place", "passes", "kind", "length")]


class _Plan(ctypes.Structure):
    _fields_ = [(name, ctypes.c_uint32) for name in ("number", "place", "macros", "elements", "tags",
                                                     "bytes", "write_number", "write_place")]


def _declare(library):
    memory, size = [ctypes.c_char_p, ctypes.c_size_t], ctypes.c_size_t
    for name, lent in (("m7_read", 2 * memory), ("m7_write", 2 * memory), ("m7_fresh", memory),
                       ("m7_widen", 2 * memory), ("m7_narrow", 2 * memory),
                       ("m7_feed", 3 * memory + [ctypes.c_uint32] + 2 * memory),
                       ("m7_words", 2 * memory), ("m7_recover", 3 * memory)):
        function = getattr(library, name)
        function.restype, function.argtypes = _Answer, lent
    library.m7_measure.restype, library.m7_measure.argtypes = _Plan, memory
    for name in ("m7_table_bytes", "m7_state_bytes", "m7_old_state_bytes", "m7_output_bytes",
                 "m7_trace_bytes", "m7_file_bytes", "m7_faults_bytes"):
        getattr(library, name).restype = size
        getattr(library, name).argtypes = []
    library.m7_version.restype = library.m7_meaning.restype = ctypes.c_char_p
    library.m7_version.argtypes, library.m7_meaning.argtypes = [], [ctypes.c_uint32]
    return library


_library = _declare(ctypes.CDLL(_find()))

TABLE_BYTES = _library.m7_table_bytes()
STATE_BYTES = _library.m7_state_bytes()
OLD_STATE_BYTES = _library.m7_old_state_bytes()
OUTPUT_BYTES = _library.m7_output_bytes()
TRACE_BYTES = _library.m7_trace_bytes()
FILE_BYTES = _library.m7_file_bytes()
FAULTS_BYTES = _library.m7_faults_bytes()
__version__ = _library.m7_version().decode()


def meaning(number):
    """What a number means, in a few words."""
    return _library.m7_meaning(number).decode()


class Refused(Exception):
    """A call was refused: its number, where it shows, and the passes begun."""

    def __init__(self, number, place=0, passes=0):
        super().__init__("%d: %s" % (number, meaning(number)))
        self.number, self.place, self.passes = number, place, passes


def _checked(answer):
    if answer.number != 0:
        raise Refused(answer.number, answer.place, getattr(answer, "passes", 0))
    return answer


def _bytes(value, what):
    if not isinstance(value, (bytes, bytearray)):
        raise TypeError("%s is bytes, not %s" % (what, type(value).__name__))
    return bytes(value)


def _memory(size):
    """A memory to lend, of zeros."""
    return (ctypes.c_char * size)()


def _copy(content):
    """A memory to lend with this content; one of the wrong size is refused with 3."""
    return (ctypes.c_char * len(content)).from_buffer_copy(content)


def read(file):
    """The table of a macro file, as bytes, and the number of its macros."""
    file, table = _bytes(file, "a macro file"), _memory(TABLE_BYTES)
    answer = _checked(_library.m7_read(file, len(file), table, len(table)))
    return table.raw, answer.length


Recovered = collections.namedtuple("Recovered", "table macros faults")


def recover(file):
    """A macro file read past its faults, as a Recovered: the table of the macros kept, as
    bytes, their number, and the faults in file order, each a Refused with the number
    and place that read would raise there. A macro with a fault is left out, and
    reading goes on behind the next semicolon. Raises Refused with 10, 11, 19, or 61
    at a 257th fault."""
    file, table, faults = _bytes(file, "a macro file"), _memory(TABLE_BYTES), _memory(FAULTS_BYTES)
    answer = _checked(_library.m7_recover(file, len(file), table, len(table), faults, len(faults)))
    words = struct.unpack("<%dI" % (FAULTS_BYTES // 4), faults.raw)
    listed = [Refused(words[2 * i + 1], words[2 * i + 2]) for i in range(words[0])]
    return Recovered(table.raw, answer.length, listed)


Plan = collections.namedtuple("Plan", "macros elements tags bytes unwritten")


def measure(file):
    """What a macro file will take, as a Plan: its macros, the most elements and the most
    tags of one, and the bytes of the file written out. Where writing it out would be
    refused, bytes is None and unwritten is that Refused, whose place counts in what
    would be written; else unwritten is None. Raises Refused where read would."""
    file = _bytes(file, "a macro file")
    plan = _checked(_library.m7_measure(file, len(file)))
    unwritten = Refused(plan.write_number, plan.write_place) if plan.write_number != 0 else None
    return Plan(plan.macros, plan.elements, plan.tags, None if unwritten else plan.bytes, unwritten)


def write(table):
    """A table, given as bytes, written out as a macro file."""
    table, file = _bytes(table, "a table"), _memory(FILE_BYTES)
    answer = _checked(_library.m7_write(table, len(table), file, len(file)))
    return file.raw[:answer.length]


def fresh():
    """The fresh state, as bytes."""
    state = _memory(STATE_BYTES)
    _checked(_library.m7_fresh(state, len(state)))
    return state.raw


def widen(old):
    """The state, as bytes, that a state of the old size becomes: one that was kept since
    before entries held 100 bytes. Raises Refused with 3 or 2."""
    old, state = _bytes(old, "a state"), _memory(STATE_BYTES)
    _checked(_library.m7_widen(old, len(old), state, len(state)))
    return state.raw


def narrow(state):
    """The state of the old size, as bytes, that a state becomes. Raises Refused with 3 or
    2, and with 42 where an entry has more than 50 bytes."""
    state, old = _bytes(state, "a state"), _memory(OLD_STATE_BYTES)
    _checked(_library.m7_narrow(state, len(state), old, len(old)))
    return old.raw


def words(line, pattern):
    """How many words of a line a word-pattern covers, and the place of the first,
    counted in bytes from 0, or None if there is none. Raises Refused."""
    line, pattern = _bytes(line, "a line"), _bytes(pattern, "a word-pattern")
    answer = _checked(_library.m7_words(line, len(line), pattern, len(pattern)))
    return answer.length, answer.place if answer.length > 0 else None


class Song:
    """A table and a state, and lines that are fed to them.

    `file` is a macro file. `state` is a state that was kept before; without it
    the song begins with a fresh one. One of the old size goes through widen
    first. After a refusal both are as they were.
    """

    def __init__(self, file=b"", state=None, budget=BUDGET):
        table, self.macros = read(file)
        state = fresh() if state is None else _bytes(state, "a state")
        self.budget = budget
        self.passes = 0  # of the line fed last
        self.kind = 0    # OUT, WITHHELD or CONTROL
        self._table = _copy(table)
        self._state = _copy(state)
        self._output = _memory(OUTPUT_BYTES)
        self._trace = _memory(TRACE_BYTES)
        self._check()

    def _check(self):
        """Raises Refused(2) if the state is none: no macros take an empty line."""
        table, state = _memory(TABLE_BYTES), _copy(self._state.raw)
        _checked(_library.m7_feed(table, len(table), state, len(state), b"", 0, 0,
                                  self._output, len(self._output), self._trace, len(self._trace)))

    @property
    def table(self):
        """The table as bytes; a control line may have added macros to it."""
        return self._table.raw

    @property
    def state(self):
        """The state as bytes, to be kept for another Song."""
        return self._state.raw

    @property
    def trace(self):
        """The trace of the line that was taken last while TRACE was 1, as m7.h has it:
        for each pass in which a macro occurred the line before, its number, the line
        after. The control line $TRACE 1 sets TRACE."""
        return self._trace.raw.rstrip(b"\0")

    def written(self):
        """The table written out as a macro file."""
        return write(self.table)

    def feed(self, line):
        """The line that goes out, or None for one that is withheld or a control
        line. The line has no line feed at its end. Raises Refused."""
        line = _bytes(line, "a line")
        if not 0 <= self.budget < 1 << 32:
            raise ValueError("a budget is a number from 0 to 1,000,000")
        answer = _library.m7_feed(self._table, len(self._table), self._state, len(self._state),
                                  line, len(line), self.budget, self._output, len(self._output),
                                  self._trace, len(self._trace))
        self.passes, self.kind = answer.passes, answer.kind
        _checked(answer)
        return self._output.raw[:answer.length] if answer.kind == OUT else None
