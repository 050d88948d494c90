"""A day of examples/ read for a picture or a check: its settings, and each event with the reports that the program gave to it.
What the circulars compute is reckoned here once more, as with a pencil: band, reference, range, mark. Prices are paise."""
from fractions import Fraction
from functools import cache
from pathlib import Path

HERE = Path(__file__).resolve().parent
OPEN = 9 * 3600 * 1000  # the clock at the open
MINUTE, COOLING = 60_000, 900_000
PERCENTS = {'broad': (4, 2), 'narrow': (4, 2), 'sensitive': (3, 1), 'energy': (6, 3), 'metals': (6, 3), 'precious': (6, 3), 'gems': (3, 3),
            'other': (6, 3)}


def clock(t):
    """9:20, 9:35:10, 9:34:59.999: the clock time of a time from the open."""
    seconds, thousandths = divmod(OPEN + t, 1000)
    text = f'{seconds // 3600}:{seconds // 60 % 60:02}'
    if seconds % 60 or thousandths:
        text += f':{seconds % 60:02}'
    return text + (f'.{thousandths:03}' if thousandths else '')


def rupees(paise):
    """6,572 or 6,756.80; a part of a paisa too, where there is one."""
    whole, rest = divmod(Fraction(paise), 100)
    if not rest:
        return f'{whole:,}'
    paise, part = divmod(rest, 1)
    return f'{whole:,}.{int(paise):02}' + f'{float(part):g}'[2:] * bool(part)


@cache
def growth(days):
    """The growth factor of a number of days, times 1,000,000,000, rounded down."""
    x, total, term = Fraction(days, 3650), Fraction(0), Fraction(1)
    for k in range(9):
        total, term = total + term, term * x / (k + 1)
    return int(total * 10**9)


class Line:
    """One line: its text, its time, what it does or says, and its numbers."""

    def __init__(self, text):
        self.text = text
        self.words = dict(word.split('=') for word in text.split(' ') if word.count('=') == 1)
        self.numbers = {key: int(value) for key, value in self.words.items() if value.isdigit()}
        self.t = self.numbers.get('t')
        self.kind = self.words.get('do') or self.words.get('say')
        self.reports = []

    def __getattr__(self, key):
        if key in self.__dict__.get('numbers', ()):
            return self.numbers[key]
        raise AttributeError(key)

    def said(self, kind):
        return [report for report in self.reports if report.kind == kind]

    def is_order(self):
        return self.kind in ('buy', 'sell')

    def is_market(self):
        return self.words.get('kind') == 'market'


class Day:
    """A day of examples/: what went in, and what the program printed for it (or `out`, where that is handed in)."""

    def __init__(self, name, out=None):
        self.name = name
        self.inputs = (HERE / f'{name}.in').read_text().splitlines()
        self.out = out or (HERE / f'{name}.out').read_text().splitlines()
        self.settings, self.events = Line(self.inputs[0]), [Line(text) for text in self.inputs[1:]]
        self.initial, self.enhanced = PERCENTS[self.settings.words['cat']]
        self.share([Line(text) for text in self.out])
        self.trades = [report for event in self.events for report in event.said('trade')]
        self.spots = [(0, self.settings.under)] + [(event.t, event.price) for event in self.events if event.kind == 'under']

    def share(self, reports):
        """Hands each event its reports: those of its time that an event of its kind may have, in order."""
        for event in self.events:
            while reports and reports[0].t == event.t and self.belongs(event, reports[0]) and not event.said('refuse'):
                event.reports.append(reports.pop(0))

    @staticmethod
    def belongs(event, report):
        if report.kind == 'accept':
            return event.is_order() and not event.said('accept')
        if report.kind == 'refuse':
            return not event.reports and (event.kind not in ('clock', 'under') or report.code < 7)
        if report.kind in ('trade', 'convert'):
            return event.is_order()
        if report.kind == 'cancel':
            return event.kind in ('cancel', 'close') or event.is_order() and report.why != 5
        return report.kind != 'close' or event.kind == 'close'

    def band(self, percent):
        base, tick = self.settings.base, self.settings.tick
        return -(-base * (100 - percent) // (100 * tick)) * tick, base * (100 + percent) // (100 * tick) * tick

    def widened(self):
        """The event that brought the wider band, or None."""
        return next((event for event in self.events if event.said('slab')), None)

    def band_at(self, t):
        event = self.widened()
        return self.band(self.initial + (self.enhanced if event and event.t <= t else 0))

    def touch(self):
        """The first trade at an end of the first band, or None."""
        return next((trade for trade in self.trades if trade.price in self.band(self.initial)), None)

    def theoretical(self, t):
        """From the spot price that was known before t."""
        spot = [price for at, price in self.spots if at < t or at == 0][-1]
        return spot * growth(self.settings.days) // 10**9 if spot else None

    @cache
    def reference(self, t):
        """The reference at t: the average of the trades of the minute that has just ended, else from the spot price, else as it was."""
        at = t // MINUTE * MINUTE
        while at > 0:
            prices = [trade.price for trade in self.trades if at - MINUTE <= trade.t < at]
            if prices:
                return sum(prices) // len(prices)
            if self.theoretical(at):
                return self.theoretical(at)
            at -= MINUTE
        return self.theoretical(0) or self.settings.base

    def range(self, t):
        """Both ends, which may lie between two paise."""
        reference = self.reference(t)
        return tuple(Fraction(reference * (200 + sign * self.initial), 200) for sign in (-1, 1))

    def book(self, upto):
        """The orders that rest after the first `upto` events: number -> side, price, lots."""
        resting = {}
        for event in self.events[:upto]:
            for report in event.reports:
                if report.kind == 'accept':
                    resting[report.id] = [event.kind, event.numbers.get('price'), event.qty]
                elif report.kind == 'trade':
                    for number in (report.buy, report.sell):
                        resting[number][2] -= report.qty
                elif report.kind == 'convert':
                    resting[report.id][1] = report.price
                elif report.kind == 'cancel':
                    resting[report.id][2] = 0
        return {number: order for number, order in resting.items() if order[2] > 0}

    @cache
    def stop(self, event):
        """Why a market order stopped: the word, and the price that stopped it; or None where it was filled."""
        if not event.is_market() or event.said('refuse'):
            return None
        traded = event.said('trade')
        for report in event.said('cancel'):
            if report.why == 3:
                return 'range', self.range(event.t)[event.kind == 'buy']
        if not event.said('convert') and not event.said('cancel'):
            return None
        counter = [price for side, price, _ in self.book(self.events.index(event) + 1).values() if side != event.kind]
        if traded and counter:
            return 'mark', Fraction(traded[0].price * (102 if event.kind == 'buy' else 98), 100)
        shut_out = any(report.code == 8 for other in self.events if other.kind not in ('clock', event.kind) and other.t < event.t
                       for report in other.said('refuse'))
        return ('band', self.band_at(event.t)[event.kind == 'buy']) if shut_out else ('nobody', None)
