#!/usr/bin/env python3
"""Holds kakoludar.py to the example days, to the header, and to the words of docs/LINES.md. Run host/library first."""
import re
import sys
from dataclasses import replace
from pathlib import Path

sys.dont_write_bytecode = True
HERE = Path(__file__).resolve().parent
ROOT = HERE.parent.parent
sys.path.insert(0, str(HERE))
import kakoludar as k  # noqa: E402

SETTINGS = k.Settings(k.Category.GEMS, base=10_000, close=10_000, settle=10_000, tick=5, length=3_600_000)


def refused(number, call, *words):
    """The call is refused by this number, in words that name it."""
    try:
        call(*words)
    except k.Refused as refusal:
        assert refusal.number == number and str(refusal).startswith(f'refused by {number}: '), refusal
        return refusal
    raise AssertionError(f'{words} was not refused by {number}')


def pieces(data, length):
    return [data[at:at + length] for at in range(0, len(data), length)]


def days():
    """Every example day, whole, in pieces, and line by line by values, prints its output byte for byte."""
    inputs = sorted((ROOT / 'examples').glob('*.in'))
    assert inputs
    for path in inputs:
        given, expected = path.read_bytes(), path.with_suffix('.out').read_bytes()
        assert k.run(given) == expected, path
        for length in (1, 7, 100):
            desk = k.Desk()
            assert b''.join([desk.feed(piece) for piece in pieces(given, length)] + [desk.end()]) == expected, (path, length)
            assert desk.over and desk.session() is None
        assert by_values(given) == expected, path
    return len(inputs)


def by_values(given):
    """A day's lines read, applied and written one by one, what is refused told as the program tells it."""
    settings, at = k.read_settings(given)
    assert k.write_settings(settings) == given[:at]
    day, printed = k.Session.open(settings), b''
    while at < len(given):
        try:
            event, taken = k.read_event(given[at:])
        except k.Refused as refusal:
            place = len(given) - at if refusal.number == 14 else refusal.place
            return printed + b'say=bad code=%d at=%d\n' % (refusal.number, place)
        assert k.write_event(event) == given[at:at + taken]
        at += taken
        before = day.numbers, day.tables
        try:
            printed += b''.join(map(k.write_report, day.apply(event)))
        except k.Refused as refusal:
            assert before == (day.numbers, day.tables)
            printed += b't=%d say=refuse code=%d\n' % (event.time, refusal.number)
        assert day.is_sound
        # a day that is kept and taken up again is the same
        day = k.Session.from_numbers(day.numbers, *day.tables)
    return printed


def journal(given):
    """What an app saves of a day: the file, the accepted events, and behind each saved line the file's end and the day's numbers."""
    settings, at = k.read_settings(given)
    day, file, events = k.Session.open(settings), given[:at], []
    behind = [(len(file), day.numbers, day.tables)]
    while at < len(given):
        try:
            event, taken = k.read_event(given[at:])
        except k.Refused:
            break
        at += taken
        try:
            day.apply(event)
        except k.Refused:
            continue
        file, events = file + k.write_event(event), events + [event]
        behind.append((len(file), day.numbers, day.tables))
    return file, events, behind


def comes_back(given):
    """What is saved of a day, cut after every byte: the whole lines count, and what comes back is the day as it was behind them and goes on
    to the same end."""
    file, events, behind = journal(given)
    for cut in range(len(file) + 1):
        if cut < behind[0][0]:
            assert refused(14, k.Session.resume, file[:cut]).place == 0
            continue
        back, counted = k.Session.resume(file[:cut])
        whole = max(line for line, (end, _, _) in enumerate(behind) if end <= cut)
        assert (counted, back.numbers, back.tables) == behind[whole], cut
        if cut == counted:
            for event in events[whole:]:
                back.apply(event)
            assert (len(file), back.numbers, back.tables) == behind[-1], cut
    return len(file) + 1


def saved():
    """Every example day comes back; a bad line tells its place."""
    cuts = sum(comes_back(path.read_bytes()) for path in sorted((ROOT / 'examples').glob('*.in')))
    first, second = k.write_settings(SETTINGS), k.write_event(k.Order(5, k.Side.SELL, lots=4, price=10_150))
    assert refused(14, k.Session.resume, b'').place == 0
    assert refused(15, k.Session.resume, second).place == 0
    assert refused(22, k.Session.resume, k.write_settings(replace(SETTINGS, days=367)) + second).place == 0
    assert refused(15, k.Session.resume, first + second + b'\n').place == len(first + second)
    assert refused(15, k.Session.resume, first + b't=00').place == len(first) + 3
    refusal = refused(22, k.Session.resume, first + second + k.write_event(k.Clock(4)) + b'\n')
    assert refusal.place == len(first + second) and str(refusal).endswith(f'the one at byte {refusal.place}')
    return cuts


def calls():
    """The calls on a session."""
    day = k.Session.open(SETTINGS)
    assert day.apply(k.Order(5, k.Side.SELL, lots=4, price=10_150)) == [k.Accept(5, 1)]
    # the paper's (P1) to (P3)
    refused(8, day.apply, k.Order(5, k.Side.SELL, lots=1, price=10_305))
    refused(7, day.apply, k.Order(5, k.Side.SELL, lots=1, price=10_307))
    assert day.apply(k.Order(5, k.Side.SELL, lots=1, price=10_300)) == [k.Accept(5, 2)]
    assert day.view(k.Side.SELL) == [k.Resting(1, 10_150, 4), k.Resting(2, 10_300, 1)] and day.view(k.Side.BUY) == []
    assert (day.time, day.reference, day.is_closed, day.is_sound) == (5, 10_000, False, True)
    assert day.standing() == k.Standing(3, 9_700, 10_300, 9_850, 10_150, 10_000, None, None, None, 0, 2, 2, 0)
    assert day.apply(k.Order(6, k.Side.BUY, lots=5, price=10_150))[1] == k.Trade(6, 3, 1, 4, 10_150)
    assert day.standing() == k.Standing(3, 9_700, 10_300, 9_850, 10_150, 10_000, None, 10_150, 4, 1, 1, 3, 1)
    assert day.apply(k.Close(3_600_000, 10_200)) == [
        k.Cancelled(3_600_000, 3, 1, k.Why.END), k.Cancelled(3_600_000, 2, 1, k.Why.END), k.Closed(3_600_000, 10_150, 10_200)]
    assert day.is_closed
    refused(3, day.apply, k.Clock(3_600_000))
    damaged = day.numbers
    damaged[k.SESSION_REFERENCE] = 0
    unsound = k.Session.from_numbers(damaged, *day.tables)
    assert not unsound.is_sound
    refused(2, unsound.apply, k.Clock(3_600_000))
    refused(2, unsound.standing)
    refused(12, k.Session.open, replace(SETTINGS, days=367))
    refused(13, k.Session.open, replace(SETTINGS, base=10_001))
    refused(14, k.read_event, b'')
    assert refused(15, k.read_event, b't=00 do=clock\n').place == 3
    refused(17, k.write_event, k.Clock(1_000_000_000))
    assert 'does not know' in str(k.Refused(200))
    desk = k.Desk()
    assert desk.feed(k.write_settings(SETTINGS)) == b'' and desk.session().apply(k.Clock(1)) == []


def header():
    """Sizes and places are the header's; the words of the refusals are those of docs/LINES.md."""
    text = (HERE.parent / 'kakoludar.h').read_text()
    constants = {name: int(value) for name, value in re.findall(r'KAKOLUDAR_(\w+)(?: =)? (\d+)', text)}
    shared = [name for name in vars(k) if name in constants]
    assert all(constants[name] == getattr(k, name) for name in shared) and len(shared) > 15, shared
    for enum, prefix in ((k.Category, 'CATEGORY'), (k.Side, 'SIDE'), (k.Life, 'LIFE'), (k.Why, 'WHY')):
        assert all(constants[f'{prefix}_{member.name}'] == member for member in enum), enum
    rows = re.findall(r'^\| (\d+) \| (.*?) \|', (ROOT / 'docs' / 'LINES.md').read_text().split('## Refusal numbers')[1], re.M)
    assert {int(number): words for number, words in rows} == k.WORDS


calls()
header()
print(f'python: {days()} example days, whole, in pieces and by values; {saved()} cuts of what is saved of them')
