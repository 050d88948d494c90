"""Kakoludar's practice exchange for Python: one commodity futures contract on one day, proved.

This one file calls the proved library (libkakoludar.so) by ctypes and needs nothing else. The library is the one that the environment
variable KAKOLUDAR_LIBRARY names, else the one that host/library has built beside it, else an installed one.

    import kakoludar as k
    day = k.Session.open(k.Settings(k.Category.GEMS, base=10_000, close=10_000, settle=10_000, tick=5, length=3_600_000))
    day.apply(k.Order(0, k.Side.SELL, lots=4, price=10_150))         # [Accept(time=0, id=1)]
    day.apply(k.Order(1_000, k.Side.BUY, lots=1, price=10_300))      # [Accept(..), Trade(time=1000, buy=2, sell=1, lots=1, price=10150)]
    day.apply(k.Order(2_000, k.Side.BUY, lots=1, price=10_305))      # raises Refused: refused by 8: limit outside the band ..

    k.run(open('examples/touch.in', 'rb').read())                    # a whole day as text: its report lines
    day, counted = k.Session.resume(open('day.saved', 'rb').read())  # comes back from the lines that an app saved, cut after any byte

Prices are whole paise, quantities lots, times milliseconds from the open. docs/LINES.md has every line, refusal and formula. What the
library refuses is raised as Refused; a number that is below 0 or takes more than 64 bits never reaches it: ValueError."""
import ctypes
import ctypes.util
import enum
import os
import sys
from dataclasses import astuple, dataclass
from pathlib import Path
from typing import Optional

# ---- sizes and places, as in kakoludar.h

VERSION, LAYOUT = 3000, 101
SIZE_SETTINGS, SIZE_SESSION, SIZE_EVENT, SIZE_RECORD, SIZE_ORDER, SIZE_STANDING = 8, 44, 6, 6, 3, 14
SIZE_TABLE, SIZE_ROOM, SIZE_RUN, SIZE_COUNTS, SIZE_PLACE, SIZE_LINE, SIZE_TEXT = 768, 3120, 45, 2, 1, 128, 66560
SESSION_LAYOUT, SESSION_TIME, SESSION_CLOSED, SESSION_REFERENCE = 0, 9, 10, 17
STAGE_TRADING = 1
STOP_WAITS, STOP_FULL, STOP_ENDED = 0, 1, 2

# ---- the paper's words


class Category(enum.IntEnum):
    """What sort of commodity it is: the percents of the band go by it."""
    BROAD = 0
    NARROW = 1
    SENSITIVE = 2
    ENERGY = 3
    METALS = 4
    PRECIOUS = 5
    GEMS = 6
    OTHER = 7


class Side(enum.IntEnum):
    """A side of the book."""
    BUY = 1
    SELL = 2


class Life(enum.IntEnum):
    """What becomes of the part of an order that does not trade at once: it rests until the close, or is cancelled at once."""
    DAY = 1
    IOC = 2


class Why(enum.IntEnum):
    """Why an order, or what is left of it, was taken away: asked for; the rest of an ioc order; the best counter order is out of range;
    it would rest outside the band; the day's end."""
    ASKED = 1
    IOC = 2
    RANGE = 3
    BAND = 4
    END = 5


WORDS = {
    1: 'a table under 768 numbers, the report room under 3,120, or a run of numbers under its length',
    2: "the session's numbers are not sound: they cannot be a session and its live orders",
    3: 'the session is closed already',
    4: 'a number of the event is out of its range: time 0 to 86,400,000, lots 1 to 10,000, a price, settlement or underlying 1 to '
       '100,000,000, order number 1 to 60,000',
    5: 'time below that of the last accepted event',
    6: 'a close before the length of the day, or anything else at or after it',
    7: 'limit or settlement not a multiple of the tick',
    8: "limit outside the band, as it is at the event's time; its ends are allowed",
    9: 'a cancel of an order that does not rest: never given, traded in full, or cancelled',
    10: 'a day order, limit or market, whose own side holds 256 orders',
    11: 'an order, after 60,000 orders or more than 59,744 trades',
    12: 'a number of the settings is out of its range: category one of eight, base 1 to 50,000,000, close and settlement 1 to 100,000,000, '
        'tick 1 to 10,000, length 3,600,000 to 86,400,000, days 0 to 366, underlying 0 to 100,000,000',
    13: 'base, close or settlement of the settings not a multiple of the tick',
    14: 'the bytes begin a line and hold no whole one; no bytes at all, too',
    15: 'the bytes begin no line of the sort that is due',
    16: 'line room under 128 bytes',
    17: 'a number above 999,999,999 is to be written',
    22: 'a saved line that the engine refuses',
}


class Refused(Exception):
    """A refusal: its `number`, and its `place`: in the line (15), or from the first saved byte on (a resume: 15, and 22 the start of the
    line). Its words say what is wrong and what is allowed."""

    def __init__(self, number, place=0):
        self.number, self.place = number, place
        words = WORDS.get(number, 'a code that this module does not know: the library is of another version')
        where = {15: f', from byte {place} on', 22: f', the one at byte {place}'}.get(number, '')
        super().__init__(f'refused by {number}: {words}{where}')


@dataclass(frozen=True)
class Settings:
    """One contract on one day. Base, previous close and previous settlement are multiples of the tick; `under` 0 means that no price of
    the underlying is known."""
    category: Category
    base: int
    close: int
    settle: int
    tick: int
    length: int
    days: int = 0
    under: int = 0

    def numbers(self):
        """The numbers that the library takes."""
        return list(astuple(self))

    @staticmethod
    def of(numbers):
        """The settings of eight numbers."""
        return Settings(Category(numbers[0]), *numbers[1:SIZE_SETTINGS])


@dataclass(frozen=True)
class Order:
    """An event: an order comes in. Without a price it is a market order."""
    time: int
    side: Side
    lots: int
    price: Optional[int] = None
    life: Life = Life.DAY

    def numbers(self):
        """The numbers that the library takes."""
        kind, price = (2, 0) if self.price is None else (1, self.price)
        return [self.time, self.side, kind, self.life, self.lots, price]


@dataclass(frozen=True)
class Cancel:
    """An event: the resting order of this number is taken back."""
    time: int
    id: int

    def numbers(self):
        """The numbers that the library takes."""
        return [self.time, 3, 0, 0, self.id, 0]


@dataclass(frozen=True)
class Under:
    """An event: a new price of the underlying."""
    time: int
    price: int

    def numbers(self):
        """The numbers that the library takes."""
        return [self.time, 4, 0, 0, 0, self.price]


@dataclass(frozen=True)
class Clock:
    """An event: time passes, and only the slab and reference steps that are due happen."""
    time: int

    def numbers(self):
        """The numbers that the library takes."""
        return [self.time, 5, 0, 0, 0, 0]


@dataclass(frozen=True)
class Close:
    """An event: the day ends, with today's settlement."""
    time: int
    settle: int

    def numbers(self):
        """The numbers that the library takes."""
        return [self.time, 6, 0, 0, 0, self.settle]


def event_of(numbers):
    """The event of six numbers that the library wrote."""
    time, do, kind, life, amount, price = numbers
    if do in (1, 2):
        return Order(time, Side(do), amount, None if kind == 2 else price, Life(life))
    return {3: lambda: Cancel(time, amount), 4: lambda: Under(time, price), 5: lambda: Clock(time), 6: lambda: Close(time, price)}[do]()


@dataclass(frozen=True)
class Accept:
    """A report: the order was taken and has this number."""
    time: int
    id: int


@dataclass(frozen=True)
class Trade:
    """A report: a trade of two orders, at the price of the one that rested."""
    time: int
    buy: int
    sell: int
    lots: int
    price: int


@dataclass(frozen=True)
class Convert:
    """A report: the rest of a market order rests now, as a limit order at this price."""
    time: int
    id: int
    lots: int
    price: int


@dataclass(frozen=True)
class Cancelled:
    """A report: these lots of the order are cancelled; it does not rest any more."""
    time: int
    id: int
    lots: int
    why: Why


@dataclass(frozen=True)
class Slab:
    """A report: the band was widened; its ends now."""
    time: int
    low: int
    high: int


@dataclass(frozen=True)
class Reference:
    """A report: the reference price has changed."""
    time: int
    price: int


@dataclass(frozen=True)
class Closed:
    """A report: the day is over; close price, and the next day's base."""
    time: int
    price: int
    base: int


REPORTS = {1: (Accept, 2), 2: (Trade, 5), 3: (Convert, 4), 4: (Cancelled, 4), 5: (Slab, 3), 6: (Reference, 2), 7: (Closed, 3)}
KINDS = {report: kind for kind, (report, _) in REPORTS.items()}


def report_of(record):
    """The report of a record of six numbers that the library wrote."""
    report, fields = REPORTS[record[0]]
    values = list(record[1:1 + fields])
    if report is Cancelled:
        values[-1] = Why(values[-1])
    return report(*values)


def record_of(report):
    """The record of a report."""
    fields = [int(value) for value in astuple(report)]
    return [KINDS[type(report)], *fields] + [0] * (SIZE_RECORD - 1 - len(fields))


@dataclass(frozen=True)
class Resting:
    """A resting order: its number, its limit, the lots that are left."""
    id: int
    price: int
    lots: int


@dataclass(frozen=True)
class Standing:
    """Where a day stands, as it is after its last accepted event: the percent in force; the ends of the band, outside of which a limit is
    refused by 8; the ends of the execution range, in whole paise and both included; the reference; when the cooling-off ends that runs,
    None where none runs; price and lots of the last trade, None where there was none; orders that rest on each side; order numbers given;
    trades made. What the next event's time brings is not in it."""
    percent: int
    band_low: int
    band_high: int
    range_low: int
    range_high: int
    reference: int
    cooling: Optional[int]
    last_price: Optional[int]
    last_lots: Optional[int]
    buys: int
    sells: int
    given: int
    trades: int

    @staticmethod
    def of(numbers):
        """The standing of the numbers that the library laid."""
        *ends, runs, end, price, lots, buys, sells, given, trades = numbers
        last = (price, lots) if trades else (None, None)
        return Standing(*ends, end if runs else None, *last, buys, sells, given, trades)


# ---- the library


def _found():
    """The path or name of the shared library."""
    named = os.environ.get('KAKOLUDAR_LIBRARY')
    built = Path(__file__).resolve().parent.parent / 'build' / 'libkakoludar.so'
    return named or (str(built) if built.exists() else ctypes.util.find_library('kakoludar') or 'libkakoludar.so')


_library = ctypes.CDLL(_found())
for _name in ('kakoludar_version', 'kakoludar_layout'):
    getattr(_library, _name).restype = ctypes.c_uint64
if (_library.kakoludar_version(), _library.kakoludar_layout()) != (VERSION, LAYOUT):
    raise ImportError(f'{_found()} is of another version than this module')


def _numbers(length, values=()):
    """A slice of numbers. A number that 64 bits do not hold is refused before the library sees it."""
    if any(not 0 <= value < 2**64 for value in values):
        raise ValueError('a number below 0 or above 64 bits')
    return (ctypes.c_uint64 * length)(*values)


def _call(name, *slices):
    """Calls a function on slices of numbers or bytes, each handed over with its length; plain numbers go as they are."""
    words = []
    for given in slices:
        words += [ctypes.c_uint64(given)] if isinstance(given, int) else [given, ctypes.c_size_t(len(given))]
    function = getattr(_library, name)
    function.restype = ctypes.c_uint64
    return function(*words)


def _done(answer):
    """The count of an answer; a code that is not 0 is raised."""
    count, code = divmod(answer, 256)
    if code:
        raise Refused(code, count)
    return count


def _read(name, line, length):
    """The numbers of a line, and how many bytes it took."""
    run = _numbers(length)
    taken = _done(_call(name, bytes(line), run))
    return list(run), taken


def _write(name, numbers):
    """The line of some numbers."""
    room = (ctypes.c_uint8 * SIZE_LINE)()
    return bytes(room[:_done(_call(name, _numbers(len(numbers), numbers), room))])


def read_settings(line):
    """Reads a settings line from the start of the bytes: the settings, and how many bytes it took. Raises Refused by 14 or 15."""
    numbers, taken = _read('kakoludar_read_settings', line, SIZE_SETTINGS)
    return Settings.of(numbers), taken


def read_event(line):
    """Reads an event line from the start of the bytes: the event, and how many bytes it took. Raises Refused by 14 or 15."""
    numbers, taken = _read('kakoludar_read_event', line, SIZE_EVENT)
    return event_of(numbers), taken


def write_settings(settings):
    """The line of settings, its newline included. Raises Refused by 17."""
    return _write('kakoludar_write_settings', settings.numbers())


def write_event(event):
    """The line of an event, its newline included. Raises Refused by 17."""
    return _write('kakoludar_write_event', event.numbers())


def write_report(report):
    """The line of a report, its newline included. Raises Refused by 17."""
    return _write('kakoludar_write_report', record_of(report))


class Session:
    """One day on the exchange, with the memory that the library is lent."""

    def __init__(self, session, buys, sells):
        self._session, self._buys, self._sells, self._room = session, buys, sells, _numbers(SIZE_ROOM)

    @classmethod
    def open(cls, settings):
        """Opens a day. Raises Refused by 12 or 13."""
        session = _numbers(SIZE_SESSION)
        _done(_call('kakoludar_open', _numbers(SIZE_SETTINGS, settings.numbers()), session))
        return cls(session, _numbers(SIZE_TABLE), _numbers(SIZE_TABLE))

    @classmethod
    def from_numbers(cls, session, buys, sells):
        """Takes up a day that was kept as numbers (`numbers`, `tables`): all three of one moment, or not at all. Numbers that are no
        sound session are refused by 2, but numbers of two moments can pass for sound."""
        return cls(_numbers(SIZE_SESSION, session), _numbers(SIZE_TABLE, buys), _numbers(SIZE_TABLE, sells))

    @classmethod
    def resume(cls, saved):
        """Comes back from what an app has saved of a day, its settings line and the line of each accepted event, cut after any byte: the
        day of all whole lines, as if it had never stopped, and how many bytes count. The file is to be cut back to these before a line
        is appended. Raises Refused by the first bad line: 14 where there is no whole settings line yet, 15 for a line that is none, 22
        for one that the engine refuses; its `place` counts from the first saved byte."""
        session, buys, sells, place = map(_numbers, (SIZE_SESSION, SIZE_TABLE, SIZE_TABLE, SIZE_PLACE))
        code = _call('kakoludar_resume', bytes(saved), session, buys, sells, place)
        if code:
            raise Refused(code, place[0])
        return cls(session, buys, sells), place[0]

    def apply(self, event):
        """Applies an event and gives the list of its reports. Raises Refused by 2 to 11; a refused event changes nothing."""
        run = _numbers(SIZE_EVENT, event.numbers())
        count = _done(_call('kakoludar_apply', self._session, run, self._buys, self._sells, self._room))
        return [report_of(self._room[SIZE_RECORD * i:SIZE_RECORD * (i + 1)]) for i in range(count)]

    def view(self, side):
        """The orders that rest on a side, best first."""
        table = self._buys if side == Side.BUY else self._sells
        live = _call('kakoludar_view', int(side), self._session, self._buys, self._sells)
        return [Resting(*table[i:i + SIZE_ORDER]) for i in range(0, live, SIZE_ORDER)]

    def standing(self):
        """Where the day stands: the band, the range and the rest of what an app shows. Raises Refused by 2."""
        numbers = _numbers(SIZE_STANDING)
        _done(_call('kakoludar_standing', self._session, self._buys, self._sells, numbers))
        return Standing.of(numbers)

    @property
    def is_sound(self):
        """Whether the numbers are a sound session."""
        return _call('kakoludar_sound', self._session, self._buys, self._sells) == 1

    @property
    def numbers(self):
        """The session's numbers, to be kept; kakoludar.h says what they are."""
        return list(self._session)

    @property
    def tables(self):
        """Both tables, to be kept."""
        return list(self._buys), list(self._sells)

    @property
    def time(self):
        """Milliseconds from the open to the last accepted event."""
        return self._session[SESSION_TIME]

    @property
    def is_closed(self):
        """Whether the day is over."""
        return self._session[SESSION_CLOSED] == 1

    @property
    def reference(self):
        """The reference price, after the last accepted event."""
        return self._session[SESSION_REFERENCE]


class Desk:
    """Text in, text out: takes session lines in pieces, however they are cut, and gives report lines. `over` is true once a bad line or
    refused settings have ended the run, or `end` was called."""

    def __init__(self):
        self._run, self._buys, self._sells, self._room = map(_numbers, (SIZE_RUN, SIZE_TABLE, SIZE_TABLE, SIZE_ROOM))
        self._out, self._kept, self.over = (ctypes.c_uint8 * SIZE_TEXT)(), b'', False
        _done(_call('kakoludar_start', self._run))

    def _take(self, name, data):
        """Takes the whole lines of some bytes: what is printed, and the bytes that are left."""
        printed, counts = b'', _numbers(SIZE_COUNTS)
        while True:
            stop = _done(_call(name, self._run, data, self._buys, self._sells, self._room, self._out, counts))
            data = data[counts[0]:]
            printed += bytes(self._out[:counts[1]])
            if stop != STOP_FULL:
                self.over = stop != STOP_WAITS
                return printed, data

    def feed(self, piece):
        """The next piece of the input: the report lines that it gives."""
        printed, self._kept = self._take('kakoludar_feed', self._kept + bytes(piece))
        if self.over:
            self._kept = b''
        return printed

    def end(self):
        """The end of the input: what is printed of it. The run is over."""
        printed, self._kept = self._take('kakoludar_end', self._kept)
        return printed

    def session(self):
        """The day as it stands, to go on by values; None before the settings are taken and after the run is over."""
        if self._run[0] != STAGE_TRADING:
            return None
        return Session.from_numbers(self._run[1:], self._buys, self._sells)


def run(lines):
    """A whole day as text: the report lines of session lines."""
    desk = Desk()
    return desk.feed(lines) + desk.end()


if __name__ == '__main__':
    sys.stdout.buffer.write(run(sys.stdin.buffer.read()))
