"""Figures of a set of records by their definitions, second by second, for the tests: nothing of the program is used."""
import bisect
import calendar
import datetime
from collections import Counter, defaultdict

REGISTERS = ["I0", "I1", "I2", "E0", "E1", "E2"]
CODES = ["1.8.0", "1.8.1", "1.8.2", "2.8.0", "2.8.1", "2.8.2"]
NANO_PER_CENT = 10_000_000


def seconds(text):
    """The instant of a text as 2024-01-02T05:00:00Z, in seconds since 1970."""
    return calendar.timegm(datetime.datetime.strptime(text, "%Y-%m-%dT%H:%M:%SZ").timetuple())


def utc(instant):
    return datetime.datetime.fromtimestamp(instant, datetime.timezone.utc).strftime("%Y-%m-%dT%H:%M:%SZ")


def change(year, month):
    """When clocks change in March or October of a year: the last Sunday, 01:00 UTC."""
    last = datetime.date(year, month, 31)
    sunday = last - datetime.timedelta(days=(last.weekday() + 1) % 7)
    return calendar.timegm(sunday.timetuple()) + 3_600


def offset(instant):
    """What Central European time is ahead of UTC, in seconds."""
    year = int(utc(instant)[:4])
    return 7_200 if change(year, 3) <= instant < change(year, 10) else 3_600


def stamp(instant):
    """A telegram's stamp of an instant, with its season's mark."""
    ahead = offset(instant)
    local = datetime.datetime.fromtimestamp(instant + ahead, datetime.timezone.utc)
    return local.strftime("%y%m%d%H%M%S") + ("S" if ahead == 7_200 else "W")


def clock(instant, ahead):
    """Date and time that a readout shows at an instant, its clock so many seconds ahead of UTC."""
    local = datetime.datetime.fromtimestamp(instant + ahead, datetime.timezone.utc)
    return local.strftime("%y%m%d"), local.strftime("%H%M%S")


class Office:
    """Accounts, bands (name, import price, export price), meters (id, clock, registers), a week of band letters, and
    later periods (start, week, import prices, export prices), each with prices by band."""

    def __init__(self, accounts, bands, meters, week, later=()):
        self.accounts, self.bands, self.meters, self.week, self.later = accounts, bands, meters, week, later
        self.starts = [seconds(start) for start, *_ in later]
        self.known = {}

    def text(self):
        def listed(names):
            return "[" + ", ".join(f'"{it}"' for it in names) + "]"

        lines = [f"accounts = {listed(self.accounts)}", f"week = {listed(self.week)}"]
        for name, bought, sold in self.bands:
            lines += ["", "[[band]]", f'name = "{name}"', f"import = {bought}", f"export = {sold}"]
        for start, week, bought, sold in self.later:
            lines += ["", "[[period]]", f'start = "{start}"', f"week = {listed(week)}"]
            lines += [f"import = {list(bought)}", f"export = {list(sold)}"]
        for name, kind, registers in self.meters:
            lines += ["", "[[meter]]", f'id = "{name}"', f'clock = "{kind}"', f"registers = {listed(registers)}"]
        return "\n".join([*lines, ""])

    def periods(self):
        """The periods by their places."""
        return range(1 + len(self.later))

    def tariff(self, instant):
        """The places of the period and of the band of a second: the latest period begun, and in its week the letter of
        the local weekday and hour."""
        hour = instant // 3_600
        if hour not in self.known:
            local = datetime.datetime.fromtimestamp(instant + offset(instant), datetime.timezone.utc)
            period = bisect.bisect_right(self.starts, instant)
            week = self.later[period - 1][1] if period else self.week
            letter = week[local.weekday()][local.hour]
            self.known[hour] = period, [name for name, _, _ in self.bands].index(letter)
        return self.known[hour]

    def price(self, period, band, direction):
        """In nano-euro per Wh; a direction is 0 for import, 1 for export."""
        return self.later[period - 1][2 + direction][band] if period else self.bands[band][1 + direction]


def counting(records, key):
    """The records that count: those whose first `key` fields no other record has. And the disputed keys, counted."""
    held = defaultdict(set)
    for record in records:
        held[record[:key]].add(record)
    alone = sorted(next(iter(group)) for group in held.values() if len(group) == 1)
    return alone, {it: len(group) for it, group in held.items() if len(group) > 1}


def neighbours(points):
    """Each two points (meter, register, instant, Wh) of one register with none between them."""
    for before, after in zip(points, points[1:]):
        if before[:2] == after[:2]:
            yield before, after


def falls(points):
    return [pair for pair in neighbours(points) if pair[0][3] > pair[1][3]]


def energies(office, points, starts):
    """The energy of each owner, period, band and direction above 0, in Wh: the sum over seconds of the levels' rise."""
    owners = defaultdict(lambda: ([], []))
    for meter, start, owner in starts:
        owners[meter][0].append(start)
        owners[meter][1].append(owner)
    total = Counter()
    for (meter, register, begin, low), (_, _, end, high) in neighbours(points):
        if low > high:
            continue
        at, who = owners[meter]
        level = low
        for second in range(begin, end):
            rise = low + (high - low) * (second + 1 - begin) // (end - begin) - level
            if rise:
                level += rise
                place = bisect.bisect_right(at, second)
                total[who[place - 1] if place else 0, *office.tariff(second), register // 3] += rise
    return total


def over_periods(office, total, owner, band, direction):
    """The energy of all periods in Wh, and what it costs in nano-euro: in each period at its price."""
    each = [(total[owner, it, band, direction], office.price(it, band, direction)) for it in office.periods()]
    return sum(wh for wh, _ in each), sum(wh * price for wh, price in each)


def paid(payments):
    """The cents of each account's top-ups that count, given as (reference, account, cents, instant)."""
    total = Counter()
    for _, account, cents, _ in counting(payments, 1)[0]:
        total[account] += cents
    return total


def balance(office, account, total, cents):
    """An account's balance in nano-euro, of energies by owner (the account's place and 1), period, band, direction."""
    owner, nano = account + 1, NANO_PER_CENT * cents[account]
    for band in range(len(office.bands)):
        nano -= over_periods(office, total, owner, band, 0)[1]
        nano += over_periods(office, total, owner, band, 1)[1]
    return nano
