"""Bills of a set of records by their definitions, for the tests: over an office file and a store's exports. Nothing of
the program is used, and nothing of figures.py.

Energies are in Wh, costs and balances in nano-euro, instants in seconds since 1970. An interval has its begin and not
its end. A direction is `import` or `export`, an owner an account's name, or None for nobody."""
import bisect
import calendar
import csv
import datetime
import io
import itertools
import re
import tomllib
from collections import Counter, defaultdict, namedtuple

# The first instant, and the first second behind the last.
FIRST, END = 946_684_800, 4_102_444_800
NANO_PER_CENT = 10_000_000
HOUR = 3_600
REGISTERS = ("I0", "I1", "I2", "E0", "E1", "E2")
DIRECTIONS = ("import", "export")


def seconds(text):
    """The instant of a text as 2024-01-02T05:00:00Z."""
    return calendar.timegm(datetime.datetime.strptime(text, "%Y-%m-%dT%H:%M:%SZ").timetuple())


def utc(instant):
    return datetime.datetime.fromtimestamp(instant, datetime.timezone.utc).strftime("%Y-%m-%dT%H:%M:%SZ")


def direction(register):
    return "import" if register.startswith("I") else "export"


# Local calendars: Central European time ------------------------------------------------------------------------------


def last_sunday(year, month):
    """01:00 UTC of the last Sunday of March or October, when clocks change."""
    last = datetime.date(year, month, 31)
    sunday = last - datetime.timedelta(days=last.isoweekday() % 7)
    return calendar.timegm(sunday.timetuple()) + HOUR


CHANGES = [last_sunday(year, month) for year in range(2000, 2100) for month in (3, 10)]


def ahead(instant):
    """What local clocks are ahead of UTC: two hours between a change of March and that of October, else one."""
    return 2 * HOUR if bisect.bisect_right(CHANGES, instant) % 2 else HOUR


def day_of(instant):
    """The local day of which an instant is one; in the last hour of all it is still 2099-12-31."""
    local = datetime.datetime.fromtimestamp(instant + ahead(instant), datetime.timezone.utc)
    return min(local.date(), datetime.date(2099, 12, 31))


def day_begin(day):
    """The first instant of a local day of 2000 to 2099; the second behind all for the day behind them."""
    if day == datetime.date(2100, 1, 1):
        return END
    midnight = calendar.timegm(day.timetuple())
    shown = [it for it in (midnight - 2 * HOUR, midnight - HOUR) if it + ahead(it) == midnight]
    assert len(shown) == 1, f"{day} begins {len(shown)} times"
    return max(FIRST, shown[0])


def days_of(month):
    """The days of a month as 2024-01, each with its begin and end; none where it is no month of 2000 to 2099."""
    if not re.fullmatch("20[0-9]{2}-(0[1-9]|1[0-2])", month):
        return []
    year, number = int(month[:4]), int(month[5:])
    days = [datetime.date(year, number, it + 1) for it in range(calendar.monthrange(year, number)[1])]
    return [(it, day_begin(it), day_begin(it + datetime.timedelta(days=1))) for it in days]


def span_of(month):
    """The begin and the end of a month."""
    days = days_of(month)
    return days[0][1], days[-1][2]


# What is held ---------------------------------------------------------------------------------------------------------


class Office:
    """An office file: accounts, bands, and meters with their registers by name; periods with their weeks and prices."""

    def __init__(self, text):
        file = tomllib.loads(text)
        self.accounts = file["accounts"]
        self.bands = [it["name"] for it in file["band"]]
        self.meters = {it["id"]: [name for name in REGISTERS if name in it["registers"]] for it in file["meter"]}
        own = {way: [it[way] for it in file["band"]] for way in DIRECTIONS}
        self.periods = [(FIRST, file["week"], own)]
        self.periods += [(seconds(it["start"]), it["week"], it) for it in file.get("period", [])]
        self.starts = [it[0] for it in self.periods]
        # The place of each hour's band, Monday's first hour first.
        self.weeks = [[self.bands.index(letter) for letter in "".join(week)] for _, week, _ in self.periods]

    def period(self, instant):
        """The place of the latest period that has begun."""
        return bisect.bisect_right(self.starts, instant) - 1

    def band(self, instant):
        """The place of the band at a second: in its period's week that of the local weekday and hour."""
        # 1970-01-01 was a Thursday, the fourth day of its week.
        return self.weeks[self.period(instant)][((instant + ahead(instant)) // HOUR + 3 * 24) % (7 * 24)]

    def price(self, period, band, way):
        """In nano-euro per Wh."""
        return self.periods[period][2][way][band]

    def marks(self, begin, end):
        """The seconds in between at which the period or the band may be another one: whole hours of UTC."""
        return range((begin // HOUR + 1) * HOUR, end, HOUR)


def rows_below(header, text):
    """The rows of an export below its header."""
    rows = list(csv.reader(io.StringIO(text), strict=True))
    assert rows[0] == header.split(","), f"header {rows[0]!r}, wanted {header!r}"
    return rows[1:]


class Records:
    """Records held: sets of readings (meter, register, instant, Wh), assignments (meter, start, owner) and top-ups
    (reference, account, cents, instant), each with those that are withdrawn."""

    KEYS = {"reading": 3, "assignment": 2, "topup": 1}

    def __init__(self, readings, assignments, topups, withdrawals):
        self.held = {
            "reading": {self.reading(*it[:4]) for it in readings},
            "assignment": {self.assignment(*it) for it in assignments},
            "topup": {self.topup(*it) for it in topups},
        }
        self.withdrawn = defaultdict(set)
        for kind, *fields in withdrawals:
            self.withdrawn[kind].add(getattr(self, kind)(*fields))
        self.count = sum(len(it) for it in (*self.held.values(), *self.withdrawn.values()))

    @classmethod
    def exported(cls, readings, assignments, topups, withdrawals):
        """Those of the four exports."""
        return cls(
            rows_below("meter,register,instant,wh,counted", readings),
            rows_below("meter,start,account", assignments),
            rows_below("reference,account,cents,instant", topups),
            rows_below("kind,first,second,third,fourth", withdrawals),
        )

    @staticmethod
    def reading(meter, register, instant, wh):
        return meter, register, seconds(instant), int(wh)

    @staticmethod
    def assignment(meter, start, owner):
        return meter, seconds(start), owner or None

    @staticmethod
    def topup(reference, account, cents, instant):
        return reference, account, int(cents), seconds(instant)

    def counting(self, kind):
        """Those that aren't withdrawn, and whose key no other one has that isn't."""
        standing = self.held[kind] - self.withdrawn[kind]
        told = Counter(it[: self.KEYS[kind]] for it in standing)
        return sorted(it for it in standing if told[it[: self.KEYS[kind]]] == 1)


# Bills ----------------------------------------------------------------------------------------------------------------

# A reading that counts and the next one of its register that does: `low` Wh at `begin`, `high` at `end`.
Pair = namedtuple("Pair", "begin low end high")
# Seconds of a meter that have one owner, period and band, as many in a row as can be.
Run = namedtuple("Run", "begin end owner period band")
# Balances where it begins and ends, cents topped up in it; energy and cost by period, band and direction.
Bill = namedtuple("Bill", "begin topped_up energy cost end")
Piece = namedtuple("Piece", "meter register pair begin end period band wh nano")


def level(pair, instant):
    """What a register shows within a pair, in whole Wh."""
    return pair.low + (pair.high - pair.low) * (instant - pair.begin) // (pair.end - pair.begin)


class Book:
    """An office with its records."""

    def __init__(self, office, records):
        self.office, self.count = office, records.count
        self.points, self.starts = defaultdict(list), defaultdict(list)
        for meter, register, instant, wh in records.counting("reading"):
            self.points[meter, register].append((instant, wh))
        for meter, start, owner in records.counting("assignment"):
            self.starts[meter].append((start, owner))
        self.topups = records.counting("topup")
        # The instants alone, of points and of starts, in which a place is sought.
        self.read_at = {key: [it[0] for it in points] for key, points in self.points.items()}
        self.owned_from = {meter: [it[0] for it in starts] for meter, starts in self.starts.items()}
        # What each register rose by up to each of its points, where it didn't fall.
        self.sums = {}
        for key, points in self.points.items():
            rises = [max(0, after[1] - before[1]) for before, after in zip(points, points[1:])]
            self.sums[key] = list(itertools.accumulate(rises, initial=0))
        self.known, self.ends, self.balances = {}, {}, {}

    @classmethod
    def exported(cls, office, *exports):
        """Of an office file's text and the exports of readings, assignments, top-ups and withdrawals."""
        return cls(Office(office), Records.exported(*exports))

    def owner(self, meter, instant):
        """The owner by the latest start that counts."""
        place = bisect.bisect_right(self.owned_from.get(meter, ()), instant)
        return self.starts[meter][place - 1][1] if place else None

    def pairs(self, meter, register, begin=FIRST, end=END):
        """The pairs that have seconds in an interval."""
        points = self.points[meter, register]
        first = max(1, bisect.bisect_right(self.read_at.get((meter, register), ()), begin))
        for place in range(first, len(points)):
            if points[place - 1][0] >= end:
                break
            yield Pair(*points[place - 1], *points[place])

    def flow(self, meter, register, second):
        """What a register carries in a second: by how much the level rises, of a pair that doesn't fall."""
        for pair in self.pairs(meter, register, second, second + 1):
            if pair.low <= pair.high:
                return level(pair, second + 1) - level(pair, second)
        return 0

    def risen(self, meter, register, instant):
        """What a register carried in all the seconds before an instant."""
        points = self.points[meter, register]
        place = bisect.bisect_left(self.read_at.get((meter, register), ()), instant)
        if place == 0:
            return 0
        whole = self.sums[meter, register][place - 1]
        if place == len(points) or points[place][1] < points[place - 1][1]:
            return whole
        pair = Pair(*points[place - 1], *points[place])
        return whole + level(pair, instant) - pair.low

    def all_runs(self, meter):
        """All the seconds in which a meter may carry something, in runs."""
        if meter not in self.known:
            told = [it for register in self.office.meters[meter] if (it := self.points[meter, register])]
            begin, end = (min(it[0][0] for it in told), max(it[-1][0] for it in told)) if told else (0, 0)
            marks = {*self.office.marks(begin, end), *(it for it, _ in self.starts[meter] if begin < it < end)}
            marks = [begin, *sorted(marks), end]
            begun = []
            for mark in marks[:-1]:
                of = self.owner(meter, mark), self.office.period(mark), self.office.band(mark)
                if not begun or begun[-1][1] != of:
                    begun.append((mark, of))
            ends = [*(mark for mark, _ in begun[1:]), end]
            found = [Run(mark, until, *of) for (mark, of), until in zip(begun, ends)]
            self.known[meter], self.ends[meter] = found, ends
        return self.known[meter]

    def runs(self, meter, begin, end):
        """Those of an interval, the first and the last cut to it."""
        found = self.all_runs(meter)
        for place in range(bisect.bisect_right(self.ends[meter], begin), len(found)):
            run = found[place]
            if run.begin >= end:
                break
            yield run._replace(begin=max(begin, run.begin), end=min(end, run.end))

    def energy(self, owner, begin, end):
        """What flows in the seconds of an interval that are an owner's, by period, band and direction."""
        total = Counter()
        for meter, registers in self.office.meters.items():
            for run in self.runs(meter, begin, end):
                if run.owner == owner:
                    for register in registers:
                        wh = self.risen(meter, register, run.end) - self.risen(meter, register, run.begin)
                        total[run.period, run.band, direction(register)] += wh
        return +total

    def cost(self, energy):
        """What energies cost, each at the price of its period, band and direction."""
        return Counter({key: self.office.price(*key) * wh for key, wh in energy.items()})

    def topped_up(self, account, begin, end):
        """The cents of the top-ups that count and have their instant in an interval."""
        return sum(cents for _, to, cents, instant in self.topups if to == account and begin <= instant < end)

    def balance(self, account, instant):
        """What was topped up before an instant, less what import of the seconds before it costs, with what export
        brings."""
        if (account, instant) not in self.balances:
            nano = NANO_PER_CENT * self.topped_up(account, 0, instant)
            spent = self.cost(self.energy(account, 0, instant))
            self.balances[account, instant] = nano - whole(spent, "import") + whole(spent, "export")
        return self.balances[account, instant]

    def bill(self, account, begin, end):
        energy = self.energy(account, begin, end)
        return Bill(
            self.balance(account, begin), self.topped_up(account, begin, end), energy, self.cost(energy),
            self.balance(account, end),
        )  # fmt: skip

    def why(self, account, begin, end):
        """The pieces of pairs that gave an account energy in an interval: by meter, register and begin."""
        for meter, registers in self.office.meters.items():
            for register in registers:
                for pair in self.pairs(meter, register, begin, end):
                    if pair.low < pair.high:
                        yield from self.pieces(account, meter, register, pair, begin, end)

    def pieces(self, account, meter, register, pair, begin, end):
        """Those of one pair. It is shared out as a whole, also where it reaches over an end of the interval."""
        begin, end = max(begin, pair.begin), min(end, pair.end)
        for run in self.runs(meter, begin, end) if account in self.owners(meter, begin, end) else ():
            wh = level(pair, run.end) - level(pair, run.begin)
            if run.owner == account and wh:
                nano = wh * self.office.price(run.period, run.band, direction(register))
                yield Piece(meter, register, pair, run.begin, run.end, run.period, run.band, wh, nano)

    def payments(self, account, begin, end):
        """The top-ups of an account that count and have their instant in an interval, by their references."""
        return [it for it in self.topups if it[1] == account and begin <= it[3] < end]

    def owners(self, meter, begin, end):
        """Who owns a meter in an interval."""
        return {self.owner(meter, begin), *(owner for start, owner in self.starts[meter] if begin < start < end)}

    def read_up_to(self, account, begin, end):
        """Of each register of the meters that are an account's in an interval, the last point before its end, or
        None."""
        for meter, registers in self.office.meters.items():
            if account in self.owners(meter, begin, end):
                for register in registers:
                    place = bisect.bisect_left(self.read_at.get((meter, register), ()), end)
                    yield meter, register, self.points[meter, register][place - 1] if place else None


def whole(cost, way):
    """What all energy of a direction costs."""
    return sum(nano for key, nano in cost.items() if key[2] == way)


def one(first, second):
    """Two bills, the second behind the first, as one."""
    topped_up = first.topped_up + second.topped_up
    return Bill(first.begin, topped_up, first.energy + second.energy, first.cost + second.cost, second.end)


def by_seconds(book, begin, end):
    """What `energy` answers, of each owner, one second at a time."""
    total = defaultdict(Counter)
    for second in range(begin, end):
        of = book.office.period(second), book.office.band(second)
        for meter, registers in book.office.meters.items():
            for register in registers:
                total[book.owner(meter, second)][*of, direction(register)] += book.flow(meter, register, second)
    return {owner: +energy for owner, energy in total.items() if +energy}


# Pages: how they are written, and how they are read -------------------------------------------------------------------

WHY = "kind,meter,register,from,low,to,high,begin,end,period,band,wh,nano"


def euro(nano):
    """An amount as it's printed: the greatest whole number of cents that isn't above it."""
    cents = nano // NANO_PER_CENT
    return f"{'-' * (cents < 0)}{abs(cents) // 100}.{abs(cents) % 100:02}"


def cents_of(amount):
    """The cents of an amount as it's printed."""
    digits = amount.removeprefix("-").replace(".", "")
    return int(digits) * (-1 if amount.startswith("-") else 1)


def lines(*texts):
    return "".join(f"{it}\n" for it in texts)


def wide(name, *fields):
    """A name in four places, and each field behind it in sixteen."""
    return f"{name:<4}" + "".join(f"{it:>16}" for it in fields)


def rounding(bill):
    """The cents that are added so that the printed end is the printed begin with the printed amounts between."""
    begin, bought, sold, end = (
        it // NANO_PER_CENT for it in (bill.begin, whole(bill.cost, "import"), whole(bill.cost, "export"), bill.end)
    )
    return end - (begin + bill.topped_up - bought + sold)


def classes_text(book, bill, begin, end):
    """The periods that have seconds in an interval, each with a line for each band."""
    for period in range(book.office.period(begin), book.office.period(end - 1) + 1):
        yield f"period {utc(book.office.starts[period])}"
        yield wide("band", "import Wh", "import EUR", "export Wh", "export EUR")
        for band, name in enumerate(book.office.bands):
            both = [(bill.energy[period, band, way], euro(bill.cost[period, band, way])) for way in DIRECTIONS]
            yield wide(name, *itertools.chain(*both))


def bill_text(book, account, month):
    """The page of a month's bill."""
    begin, end = span_of(month)
    bill = book.bill(account, begin, end)
    added = rounding(bill)
    read = [
        " ".join(["read up to", meter, register, *([utc(last[0]), str(last[1])] if last else ["never"])])
        for meter, register, last in book.read_up_to(account, begin, end)
    ]
    return lines(
        f"account {account}",
        f"month {month}",
        f"begin EUR {euro(bill.begin)}",
        f"topped up EUR {euro(NANO_PER_CENT * bill.topped_up)}",
        *classes_text(book, bill, begin, end),
        *(f"{way} EUR {euro(whole(bill.cost, way))}" for way in DIRECTIONS),
        *([f"rounding EUR {euro(NANO_PER_CENT * added)}"] if added else []),
        f"end EUR {euro(bill.end)}",
        *read,
        f"records {book.count}",
    )


def days_text(book, account, month):
    """The page of a month's days."""
    rows = ["day,band,direction,wh,nano"]
    for day, begin, end in days_of(month):
        energy = book.energy(account, begin, end)
        cost = book.cost(energy)
        for band, name in enumerate(book.office.bands):
            for way in DIRECTIONS:
                wh, nano = (sum(it[2] for it in classes(part) if it[:2] == (band, way)) for part in (energy, cost))
                rows.append(f"{day},{name},{way},{wh},{nano}")
    return lines(*rows)


def classes(part):
    """Band, direction and figure of each period."""
    return [(band, way, figure) for (_, band, way), figure in part.items()]


def why_text(book, account, month):
    """The page of why a month's bill is what it is."""
    begin, end = span_of(month)
    rows = [WHY]
    for it in book.why(account, begin, end):
        pair = [utc(it.pair.begin), it.pair.low, utc(it.pair.end), it.pair.high]
        piece = [utc(it.begin), utc(it.end), utc(book.office.starts[it.period]), book.office.bands[it.band]]
        rows.append(joined(direction(it.register), it.meter, it.register, *pair, *piece, it.wh, it.nano))
    for reference, to, cents, instant in book.payments(account, begin, end):
        rows.append(joined("topup", reference, to, cents, utc(instant)))
    return lines(*rows)


def joined(*fields):
    """A row of CSV, of fields that need no quotes."""
    return ",".join(map(str, fields))


TEXTS = {"bill": bill_text, "days": days_text, "why": why_text}


def read_bill(text):
    """What a page tells: amounts in cents by name, energies and amounts by period's start, band and direction, and of
    each meter and register the instant and Wh that it is read up to, or None."""
    told, energy, cost, read, period = {}, {}, {}, {}, None
    for line in text.splitlines():
        name, _, rest = line.partition(" EUR ")
        words = line.split()
        if rest and name in ("begin", "topped up", *DIRECTIONS, "rounding", "end"):
            told[name] = cents_of(rest)
        elif line.startswith("read up to "):
            read[words[3], words[4]] = None if words[5] == "never" else (words[5], int(words[6]))
        elif words[0] == "period":
            period = words[1]
        elif words[0] in ("account", "month", "records"):
            told[words[0]] = words[1]
        elif words[0] != "band":
            for place, way in enumerate(DIRECTIONS):
                energy[period, words[0], way] = int(words[1 + 2 * place])
                cost[period, words[0], way] = cents_of(words[2 + 2 * place])
    return told, energy, cost, read


def read_days(text):
    """The rows of a page: Wh and nano-euro by day, band and direction."""
    rows = rows_below("day,band,direction,wh,nano", text)
    return {(day, band, way): (int(wh), int(nano)) for day, band, way, wh, nano in rows}


def read_why(text):
    """The rows of a page: pieces as dicts, and top-ups by reference, account, cents and instant."""
    rows = rows_below(WHY, text)
    pieces = [dict(zip(WHY.split(","), it, strict=True)) for it in rows if it[0] != "topup"]
    return pieces, [it[1:] for it in rows if it[0] == "topup"]
