"""Giachimu's library through ctypes: the Python that loads it has to be an x86-64 one."""
import ctypes
import enum
from typing import List, NamedTuple, Optional, Union

MOST_ROWS = 32
TEXT_LENGTH = 1084
SHEET_BYTES = 870


class Refused(Exception):
    """A call was refused: the number and the place of the table of refusals."""

    def __init__(self, number, place):
        super().__init__(f"refusal {number} at {place}")
        self.number, self.place = number, place


class Code(enum.IntEnum):
    """What a row did in a slot."""

    NO_JOB = 0
    WAITED = 1
    RAN = 2
    FINISHED = 3
    MISSED = 4


class Bound(NamedTuple):
    """A row's result: every job of the row is finished within so many slots."""

    slots: int


class NoBound(NamedTuple):
    """A row's result: no length up to its deadline passes the test."""


class Unreached(NamedTuple):
    """A row's result: a row above it has no bound, so that it was not tested."""


Result = Union[Bound, NoBound, Unreached]


class Row(NamedTuple):
    """One program of a sheet."""

    threads: int
    separation: int
    deadline: int
    budget: int


class Sheet(NamedTuple):
    """A sheet by its numbers; any numbers whatever may stand in it."""

    processors: int
    rows: List[Row]


class Ran(NamedTuple):
    """What came of a run: the codes of each slot done, and the refusal that ended it, if one did."""

    codes: List[List[Code]]
    refusal: Optional[Refused]


class Giachimu:
    """The library at a path."""

    def __init__(self, path):
        self._library = ctypes.CDLL(path)
        self._library.giachimu_green.restype = ctypes.c_bool
        self._library.giachimu_legal.restype = ctypes.c_bool

    def _call(self, name, *arguments):
        """Calls a function with its place behind the arguments; the number and the place."""
        function = getattr(self._library, name)
        function.restype = ctypes.c_uint64
        place = ctypes.c_size_t()
        number = function(*arguments, ctypes.byref(place))
        return number, place.value

    def _ask(self, name, *arguments):
        """The same for a function that is refused or accepted as a whole."""
        number, place = self._call(name, *arguments)
        if number:
            raise Refused(number, place)

    def green(self, data):
        """Whether the bytes are a sheet whose every row has a bound: then no job is ever late."""
        return self._library.giachimu_green(data, _length(data))

    def verdict(self, data):
        """The text of the verdict on some bytes."""
        text, length = (ctypes.c_uint8 * TEXT_LENGTH)(), ctypes.c_size_t()
        self._ask("giachimu_verdict", data, _length(data), text, _length(text), ctypes.byref(length))
        return bytes(text[: length.value]).decode("ascii")

    def read(self, data):
        """The sheet in some bytes."""
        numbers = _numbers([0] * (4 * MOST_ROWS + 2))
        self._ask("giachimu_read", data, _length(data), numbers, _length(numbers))
        return _sheet(numbers)

    def label(self, data, row):
        """The label of a row."""
        start, length = ctypes.c_size_t(), ctypes.c_size_t()
        self._ask("giachimu_label", data, _length(data), ctypes.c_size_t(row), ctypes.byref(start), ctypes.byref(length))
        return data[start.value : start.value + length.value].decode("ascii")

    def labels(self, data):
        """The label of each row, as bytes."""
        list_ = _numbers([0] * (2 * MOST_ROWS))
        self._ask("giachimu_labels", data, _length(data), list_, _length(list_))
        return [data[start : start + length] for start, length in zip(list_[::2], list_[1::2]) if length]

    def read_labelled(self, data):
        """The sheet in some bytes, and the label of each row: any number or label may be corrected, and the sheet written again."""
        return self.read(data), self.labels(data)

    def write(self, sheet, labels):
        """The sheet's bytes, with a label for each row, as bytes; a row without one is refused by 6."""
        numbers, (data, list_), length = _listed(sheet), _joined(labels), ctypes.c_size_t()
        written = (ctypes.c_uint8 * SHEET_BYTES)()
        self._ask(
            "giachimu_write", numbers, _length(numbers), data, _length(data), list_, _length(list_), written, _length(written), ctypes.byref(length)
        )
        return bytes(written[: length.value])

    def number(self, data, at):
        """The number at a place of some bytes, and the place after it."""
        value, after = ctypes.c_uint64(), ctypes.c_size_t()
        self._ask("giachimu_number", data, _length(data), ctypes.c_size_t(at), ctypes.byref(value), ctypes.byref(after))
        return value.value, after.value

    def number_up_to(self, data, at, most):
        """The same for a number from 1 to the most."""
        value, after = ctypes.c_uint64(), ctypes.c_size_t()
        self._ask(
            "giachimu_number_up_to", data, _length(data), ctypes.c_size_t(at), ctypes.c_uint64(most), ctypes.byref(value), ctypes.byref(after)
        )
        return value.value, after.value

    def fixed(self, number):
        """A worked sheet, A to F by 0 to 5; a sheet of zeros by any other number."""
        numbers = _numbers([0] * (4 * MOST_ROWS + 2))
        self._ask("giachimu_fixed", ctypes.c_size_t(number), numbers, _length(numbers))
        return _sheet(numbers)

    def legal(self, sheet):
        """Whether a sheet is in the ranges."""
        numbers = _listed(sheet)
        return self._library.giachimu_legal(numbers, _length(numbers))

    def bounds(self, sheet):
        """The result of each row; the sheet holds where every one is a bound."""
        numbers, results, holds = _listed(sheet), _numbers([0] * (2 * MOST_ROWS)), ctypes.c_uint64()
        self._ask("giachimu_bounds", numbers, _length(numbers), results, _length(results), ctypes.byref(holds))
        return [_result(results[2 * row], results[2 * row + 1]) for row in range(len(sheet.rows))]

    def fresh(self, sheet):
        """The fresh state, a list that the other calls take and change."""
        numbers, state = _listed(sheet), _numbers([0] * (2 * MOST_ROWS))
        self._ask("giachimu_fresh", numbers, _length(numbers), state, _length(state))
        return state

    def slot(self, sheet, state, releases):
        """One slot, which changes the state: the code of each row."""
        numbers, list_, codes = _listed(sheet), _numbers(releases), (ctypes.c_uint8 * len(releases))()
        self._ask("giachimu_slot", numbers, _length(numbers), state, _length(state), list_, _length(list_), codes, _length(codes))
        return [Code(code) for code in codes]

    def run(self, sheet, state, releases):
        """Slots one after another, which change the state, to the first that is refused."""
        return self._run("giachimu_run", sheet, state, releases)

    def boxed(self, sheet, releases):
        """Slots one after another from the fresh state, by the box's own loop: what came of them, and the state after them."""
        state = _numbers([0] * (2 * MOST_ROWS))
        return self._run("giachimu_box", sheet, state, releases), state

    def _run(self, name, sheet, state, releases):
        numbers, list_, codes, done = _listed(sheet), _numbers(releases), (ctypes.c_uint8 * len(releases))(), ctypes.c_uint64()
        number, place = self._call(
            name, numbers, _length(numbers), state, _length(state), list_, _length(list_), codes, _length(codes), ctypes.byref(done)
        )
        width = len(sheet.rows)
        slots = [[Code(code) for code in codes[slot * width : (slot + 1) * width]] for slot in range(done.value)]
        return Ran(slots, Refused(number, place) if number else None)

    def read_scenario(self, sheet, data):
        """The releases of each slot of a scenario's bytes, by a sheet."""
        numbers, slots, width = _listed(sheet), ctypes.c_uint64(), len(sheet.rows)
        list_ = _numbers([0] * (len(data) * width))
        self._ask("giachimu_read_scenario", numbers, _length(numbers), data, _length(data), list_, _length(list_), ctypes.byref(slots))
        return [list_[slot * width : (slot + 1) * width] for slot in range(slots.value)]

    def write_scenario(self, sheet, releases):
        """The scenario's bytes of a release list, n entries to a slot, by a sheet."""
        numbers, list_, length = _listed(sheet), _numbers(releases), ctypes.c_size_t()
        data = (ctypes.c_uint8 * (4 + 5 * len(releases)))()
        self._ask("giachimu_write_scenario", numbers, _length(numbers), list_, _length(list_), data, _length(data), ctypes.byref(length))
        return bytes(data[: length.value])

    def margin(self, sheet, state, row):
        """The margin of a row; None where it has no job."""
        numbers, job, margin = _listed(sheet), ctypes.c_uint64(), ctypes.c_int64()
        self._ask(
            "giachimu_margin", numbers, _length(numbers), state, _length(state), ctypes.c_size_t(row), ctypes.byref(job), ctypes.byref(margin)
        )
        return margin.value if job.value else None


def _length(of):
    return ctypes.c_size_t(len(of))


def _numbers(values):
    return (ctypes.c_uint64 * len(values))(*values)


def _result(word, slots):
    return (Unreached(), Bound(slots), NoBound())[word]


def _sheet(numbers):
    return Sheet(numbers[0], [Row(*numbers[2 + 4 * row : 6 + 4 * row]) for row in range(numbers[1])])


def _listed(sheet):
    return _numbers([sheet.processors, len(sheet.rows)] + [number for row in sheet.rows for number in row])


def _joined(labels):
    """Labels one after another in one string of bytes, and the list of where each starts in it and how many bytes it has."""
    data, list_ = b"", []
    for label in labels:
        list_ += [len(data), len(label)]
        data += label
    return data, _numbers(list_)
