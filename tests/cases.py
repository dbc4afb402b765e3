"""Writes what the program `cases` is run on (crates/cases/stdin) and what it must print (crates/cases/stdout).

The answers come from a reader, a run and a planner of their own, written from document 01 and requests W1 and W2 and not from
the proved code. Run it from the repository's top: python3 tests/cases.py

A reading is jobs done, present level, elapsed time, energy spent and temperature.
"""
from functools import lru_cache

HEAD = [(1, 64), (1, 8), None, (0, 2 * 10**9), (0, 2 * 10**9), (0, 20000), (0, 20000), (0, 20000), (1, 2 * 10**9), (1, 20000)]
COST = (0, 10**7)
NO_WAY = 4294967295
# The words and the bytes that the program has to lend, and what a byte holds that is not written: no level.
WORDS, BYTES, UNWRITTEN = 16384, 64, 9
SHEET = b"""V	1
H	2	2	0	50	100	2500	1000	2000	10	100
L	10000
L	20000
S	0	0
S	2	3
S	1	3
S	0	0
J	log
B	30	20	32768
B	18	45	32768
J	send
B	28	25	32768
B	15	40	32768
"""
# Where its plan, run exactly, stands after its first job.
READING = 1, 1, 20, 48, 2500


class Refused(Exception):
    """A refusal: number, line, field."""


def number(field):
    is_form = 1 <= len(field) <= 10 and all(48 <= c <= 57 for c in field) and (len(field) == 1 or field[0] != 48)
    return int(field) if is_form else None


def steady(power, resistance):
    """To the nearest whole number, an exact half to the even one."""
    below = power * resistance // 10000
    return min(below, below + 1, key=lambda whole: (abs(10000 * whole - power * resistance), whole % 2))


class Reader:
    def __init__(self, sheet):
        self.lines = sheet.split(b"\n")[:-1]
        self.at = 0

    def fields(self, letter, count):
        at = self.at + 1
        fields = self.lines[self.at].split(b"\t") if self.at < len(self.lines) else []
        if len(fields) != count + 1 or fields[0] != letter:
            raise Refused(2, at, 0)
        self.at = at
        return fields[1:]

    def numbers(self, letter, ranges):
        values = []
        for i, field in enumerate(self.fields(letter, len(ranges))):
            value = number(field)
            if value is None:
                raise Refused(3, self.at, i + 2)
            low, high = ranges[i] or (0, values[1] - 1)
            if not low <= value <= high:
                raise Refused(4, self.at, i + 2)
            values.append(value)
        return values

    def name(self):
        name = self.fields(b"J", 1)[0]
        if not (1 <= len(name) <= 16 and all(33 <= c <= 126 for c in name)):
            raise Refused(3, self.at, 2)
        return name


def read(sheet):
    """The H line's figures, the powers, the changes, and the jobs, each a name and its figures at each level."""
    if len(sheet) > 20480:
        raise Refused(1, 0, 0)
    r = Reader(sheet)
    r.numbers(b"V", [(1, 1)])
    head = r.numbers(b"H", HEAD)
    if head[6] > head[5]:
        raise Refused(5, 2, 8)
    jobs, levels = head[:2]
    powers = []
    for _ in range(levels):
        powers += r.numbers(b"L", [(0, 100000)])
        if steady(powers[-1], head[7]) > 20000:
            raise Refused(4, r.at, 2)
    changes = [[r.numbers(b"S", [(0, 0) if p == j else COST] * 2) for j in range(levels)] for p in range(levels)]
    work = [(r.name(), [r.numbers(b"B", [(1, 10**7), COST, (0, 65536)]) for _ in range(levels)]) for _ in range(jobs)]
    if sum(len(line) + 1 for line in r.lines[: r.at]) != len(sheet):
        raise Refused(6, r.at + 1, 0)
    return head, powers, changes, work


def ceil_div(x, n):
    return -(-x // n)


class Frame:
    """The figures of a sheet, and both runs over them."""

    def __init__(self, sheet):
        head, powers, self.changes, work = read(sheet)
        self.jobs, self.levels, self.start_level, self.deadline, self.energy_budget = head[:5]
        self.temperature_limit, self.start_temperature, resistance, self.energy_step, self.temperature_step = head[5:]
        self.steady = [steady(power, resistance) for power in powers]
        self.work = [figures for _, figures in work]

    def after(self, i, before, energy, temperature, level):
        """The time of job i at a level, and the energy and the temperature at its end."""
        change, job = self.changes[before][level], self.work[i][level]
        temperature = ceil_div(job[2] * temperature + (65536 - job[2]) * self.steady[level], 65536)
        return change[0] + job[0], energy + change[1] + job[1], temperature

    def start(self):
        """The reading before the first job."""
        return 0, self.start_level, 0, 0, self.start_temperature

    def run(self, levels, reading):
        """Time, energy and temperature of a list's exact run from a reading on, and its highest temperature at a job end."""
        done, before, time, energy, temperature = reading
        highest = 0
        for i, level in enumerate(levels, done):
            taken, energy, temperature = self.after(i, before, energy, temperature, level)
            before, time, highest = level, time + taken, max(highest, temperature)
        return time, energy, temperature, highest

    def cells(self):
        """The cells of the table's two axes."""
        return self.energy_cell(self.energy_budget) + 1, self.temperature_cell(self.temperature_limit) + 1

    def energy_cell(self, energy):
        return ceil_div(energy, self.energy_step)

    def temperature_cell(self, temperature):
        return ceil_div(temperature, self.temperature_step)

    def need(self):
        a, b = self.cells()
        return self.jobs * self.levels * a * b

    def ways(self, i, before, a, b):
        """The levels at which job i can be done from a cell, each with its time and the cell after it."""
        for level in range(self.levels):
            time, energy, temperature = self.after(i, before, a * self.energy_step, b * self.temperature_step, level)
            if energy <= self.energy_budget and temperature <= self.temperature_limit:
                yield level, time, self.energy_cell(energy), self.temperature_cell(temperature)

    def plan(self, reading):
        """The words of the table, and the plan of the jobs left from a reading on, or None."""

        @lru_cache(None)
        def least(i, before, a, b):
            if i == self.jobs:
                return 0
            return min([NO_WAY] + [time + least(i + 1, level, *cell) for level, time, *cell in self.ways(i, before, a, b)])

        energies, temperatures = map(range, self.cells())
        places = [(i, p) for i in range(self.jobs) for p in range(self.levels)]
        table = [least(i, p, a, b) for i, p in places for a in energies for b in temperatures]
        done, level, time, energy, temperature = reading
        at = level, self.energy_cell(energy), self.temperature_cell(temperature)
        left, levels = least(done, *at), []
        if time + left > self.deadline:
            return table, None
        for i in range(done, self.jobs):
            for level, time, *cell in self.ways(i, *at):
                if time + least(i + 1, level, *cell) == left:
                    break
            left, at = left - time, (level, *cell)
            levels.append(level)
        return table, levels


def measure(sheet, levels):
    """The three margins of a list of levels."""
    f = Frame(sheet)
    if len(levels) != f.jobs:
        raise Refused(11, 0, 0)
    for place, level in enumerate(levels):
        if level >= f.levels:
            raise Refused(12, 0, place)
    time, energy, _, highest = f.run(levels, f.start())
    return f.deadline - time, f.energy_budget - energy, f.temperature_limit - highest


def test_lent(f, words, size, done):
    """Refuses a table that is too large or too short, and a part under one byte for each job still to do."""
    if f.need() > 4194304:
        raise Refused(7, 0, 0)
    if f.need() > words:
        raise Refused(8, 0, 0)
    if max(0, f.jobs - done) > size:
        raise Refused(9, 0, 0)


def test_reading(f, done, level, time, energy, temperature):
    """Refuses jobs done that leave none to do, figures out of their ranges, and a temperature above the limit."""
    if done >= f.jobs:
        raise Refused(13, 0, 0)
    if level >= f.levels or max(time, energy) > 2 * 10**9 or temperature > 20000:
        raise Refused(14, 0, 0)
    if temperature > f.temperature_limit:
        raise Refused(5, 0, 0)


def plan(sheet, words, size, reading=None):
    """What is answered to a sheet, planned from its start or afresh from a reading: the refusal, the figures of the plan, its
    levels, and the words that are written to the table."""
    try:
        f = Frame(sheet)
        test_lent(f, words, size, reading[0] if reading else 0)
        if reading:
            test_reading(f, *reading)
    except Refused as e:
        return e.args, (0, 0, 0), (), []
    reading = reading or f.start()
    table, levels = f.plan(reading)
    if levels is None:
        return (10, 0, 0), (0, 0, 0), (), table
    return (0, 0, 0), f.run(levels, reading)[:3], tuple(levels), table


def names(sheet):
    try:
        work = read(sheet)[3]
    except Refused:
        work = []
    return [work[i][0] if i < len(work) else b"" for i in (0, 1, 64)]


def measured(sheet, levels):
    """What is printed of a list that is measured."""
    refusal, margins = (0, 0, 0), (0, 0, 0)
    try:
        margins = measure(sheet, levels)
    except Refused as e:
        refusal = e.args
    return [b"%d" % x for x in (*refusal, *margins)]


def answered(refusal, figures, levels, table):
    """What is printed of an answer, and of the memory after it."""
    part = b"".join(b"%d" % x for x in levels).ljust(BYTES, b"%d" % UNWRITTEN)
    # each word counts once for each place from its own to the end of the table
    weighed = sum(word * (WORDS - place) for place, word in enumerate(table))
    return [b"%d" % x for x in (*refusal, *figures)] + [part, b"%d" % weighed]


def answer(note, sheet, levels, words, size, reading):
    answers = answered(*plan(sheet, words, size)) + answered(*plan(sheet, words, size, reading))
    return b"\t".join([note, *measured(sheet, levels), *names(sheet), *answers]) + b"\n"


def changed(line, field, value, sheet=SHEET):
    lines = sheet.split(b"\n")
    fields = lines[line - 1].split(b"\t")
    fields[field - 1] = value if isinstance(value, bytes) else b"%d" % value
    lines[line - 1] = b"\t".join(fields)
    return b"\n".join(lines)


def full(jobs, levels, name, time, cost=10**7):
    """A sheet whose other figures are at their upper ends, with a cost of its changes and jobs."""
    head = b"V\t1\nH\t%d\t%d\t%d\t2000000000\t2000000000\t20000\t20000\t2000\t2000000000\t20000\n" % (jobs, levels, levels - 1)
    change = lambda p, j: b"S\t0\t0\n" if p == j else b"S\t%d\t%d\n" % (cost, cost)
    changes = b"".join(change(p, j) for p in range(levels) for j in range(levels))
    return head + b"L\t100000\n" * levels + changes + (b"J\t%s\n" % name + b"B\t%d\t%d\t65536\n" % (time, cost) * levels) * jobs


def with_head(sheet, **figures):
    """The sheet with some figures of its H line changed, each under document 01's letter."""
    for letter, value in figures.items():
        sheet = changed(2, {"D": 5, "W": 6, "C": 7, "start": 8, "R": 9, "g": 10, "h": 11}[letter], value, sheet)
    return sheet


def one_job(power, resistance, start, decay):
    """A sheet with one job and one level."""
    return changed(6, 4, decay, changed(3, 2, power, with_head(full(1, 1, b"a", 1, 0), start=start, R=resistance)))


def long_frame():
    """64 jobs whose plan is bound by the deadline, the energy budget and the temperature limit."""
    head = b"V\t1\nH\t64\t2\t1\t1270\t20\t600\t100\t1000\t1\t120\nL\t1000\nL\t10000\nS\t0\t0\nS\t3\t0\nS\t1\t0\nS\t0\t0\n"
    jobs = b""
    for i in range(64):
        jobs += b"J\tjob%d\nB\t%d\t%d\t%d\n" % (i, 20 + i % 7, i % 16 // 15, 20000 + 300 * i) + b"B\t%d\t1\t52000\n" % (9 + i * i % 11)
    return head + jobs


def printed():
    """Lists on document 01's sheet."""
    for levels in ((0, 1), (1, 0), (0, 0), (1, 1)):
        yield "the sheet, levels %d %d" % levels, SHEET, levels
    yield "D 47, W 63, C 2750: all margins 0", with_head(SHEET, D=47, W=63, C=2750), (0, 1)
    yield "D 46, W 62, C 2749: all margins -1", with_head(SHEET, D=46, W=62, C=2749), (0, 1)
    yield "start 2500", changed(2, 8, 2500), (0, 1)
    yield "decay 65536: T stays 1000", SHEET.replace(b"32768", b"65536"), (0, 1)
    for note, levels in (("no list", ()), ("a list of 1", (0,)), ("a list of 3", (0, 1, 0)), ("a list of 3 with level 9", (9, 0, 0))):
        yield note, SHEET, levels
    for levels in ((2, 0), (0, 2), (2, 2), (255, 255)):
        yield "levels %d %d" % levels, SHEET, levels
    yield "version 9 and a list of 3", changed(1, 2, 9), (0, 1, 0)
    yield "empty sheet and levels 9 9", b"", (9, 9)
    yield "one job, one level", full(1, 1, b"a", 1), (0,)
    yield "the longest sheet", full(64, 8, b"~" * 16, 10**7), [i % 8 for i in range(64)]
    yield "64 jobs, level 1 of 1 at the last", full(64, 1, b"x", 1), [0] * 63 + [1]


def edges():
    """Each range: one below where it starts above 0, at both ends, one above."""
    places = [("version", 1, 2, 1, 1, SHEET)]
    named = ("m", "l", "start level", "D", "W", "C", "start temperature", "R", "g", "h")
    places += [(note, 2, k + 2, *(HEAD[k] or (0, 1)), SHEET) for k, note in enumerate(named)]
    places += [("start temperature, C 20000,", 2, 8, 0, 20000, changed(2, 7, 20000))]
    places += [("P, line %d," % line, line, 2, 0, 100000, SHEET) for line in (3, 4)]
    places += [("change, line %d, field %d," % (line, field), line, field, *COST, SHEET) for line in (6, 7) for field in (2, 3)]
    places += [("no change, line %d, field %d," % (line, field), line, field, 0, 0, SHEET) for line in (5, 8) for field in (2, 3)]
    for line in (10, 11, 13, 14):
        places += [("job time, line %d," % line, line, 2, 1, 10**7, SHEET), ("job energy, line %d," % line, line, 3, *COST, SHEET)]
        places += [("decay, line %d," % line, line, 4, 0, 65536, SHEET)]
    for note, line, field, low, high, sheet in places:
        for value in sorted({low - 1, low, high, high + 1} - {-1}):
            yield "%s %d" % (note, value), changed(line, field, value, sheet), (0, 1)
    # exactly 20000, 20001, 20000.5, 20000.4, 19999.5, 20000.4997, 20000.5001, 20001.5, 200000
    rises = (20000, 10000), (20001, 10000), (40001, 5000), (50001, 4000)
    rises += (39999, 5000), (17291, 11567), (49889, 4009), (40003, 5000), (100000, 20000)
    for power, resistance in rises:
        yield "steady rise of P %d, R %d" % (power, resistance), changed(4, 2, power, changed(2, 9, resistance)), (0, 1)


def forms():
    """Numbers and names of other forms, and which fault comes first."""
    for written in (b"", b"00", b"050", b"0", b"-1", b"+5", b"5 ", b" 5", b"5x", b"1e2", b"4294967346", b"9999999999", b"10000000000"):
        yield "D written " + written.decode(), changed(2, 5, written), (0, 1)
    for name in (b"", b"a" * 16, b"a" * 17, b"\x20", b"\x21", b"\x7e", b"\x7f", b"a b", b"\x80", b"\xff", b"send"):
        yield "name of %d bytes, last %d" % (len(name), name[-1] if name else 0), changed(9, 2, name), (0, 1)
    yield "start above C, g 0: g first", changed(2, 8, 2501, changed(2, 10, 0)), (0, 1)
    yield "start above C, wrong line 3: 5 first", changed(2, 8, 2501, changed(3, 1, b"X")), (0, 1)
    yield "D of another form, W above its range", changed(2, 5, b"x", changed(2, 6, 2000000001)), (0, 1)
    yield "D above its range, W of another form", changed(2, 5, 2000000001, changed(2, 6, b"x")), (0, 1)


def lines():
    """Faults of each line, of the sheet's end, and the sheet cut at every byte."""
    all_lines = SHEET.split(b"\n")
    for i in range(14):
        before, line, after = all_lines[:i], all_lines[i], all_lines[i + 1 :]
        wrong = (("wrong letter", [b"X" + line[1:]]), ("small letter", [line[:1].lower() + line[1:]]), ("two letters", [line[:1] + line]))
        wrong += (("one field more", [line + b"\t0"]), ("one field fewer", [line[: line.rindex(b"\t")]]), ("left out", []))
        wrong += (("twice", [line, line]), ("carriage return", [line + b"\r"]), ("a space for its first tab", [line.replace(b"\t", b" ", 1)]))
        for note, now in wrong:
            yield "line %d: %s" % (i + 1, note), b"\n".join(before + now + after), (0, 1)
    for note, more in (("an empty line", b"\n"), ("a byte", b"x"), ("a sheet", SHEET)):
        yield note + " after the last line", SHEET + more, (0, 1)
    for size in (20480, 20481):
        yield "%d bytes" % size, SHEET.ljust(size, b"x"), (0, 1)
    for size in range(len(SHEET)):
        yield "cut at %d" % size, SHEET[:size], (0, 1)


def planned():
    """The list of document 01, changed as request W2 says: with the words and bytes lent and the answer, as printed there."""
    same, slow = ((1, 0), 49, 76, 2250), ((0, 0), 58, 45, 1750)
    for note, sheet, want in (
        ("D 49", with_head(SHEET, D=49), same),
        ("D 48", with_head(SHEET, D=48), (10, 0, 0)),
        ("C 2499", with_head(SHEET, C=2499), (10, 0, 0)),
        ("C 2499 and D 58", with_head(SHEET, C=2499, D=58), slow),
        ("h 300", with_head(SHEET, h=300), (10, 0, 0)),
        ("h 1000", with_head(SHEET, h=1000), same),
        ("W 78", with_head(SHEET, W=78), same),
        ("W 77", with_head(SHEET, W=77), (10, 0, 0)),
        ("W 76 and g 1", with_head(SHEET, W=76, g=1), same),
        ("empty sheet", b"", (2, 1, 0)),
        ("version 9", changed(1, 2, 9), (4, 1, 2)),
        ("start 2501", with_head(SHEET, start=2501), (5, 2, 8)),
    ):
        yield note, sheet, (1, 0), WORDS, BYTES, want
    yield "steady rise of P 1500, R 1830", one_job(1500, 1830, 0, 0), (0,), WORDS, BYTES, ((0,), 1, 0, 274)
    yield "steady rise of P 1450, R 1900", one_job(1450, 1900, 0, 0), (0,), WORDS, BYTES, ((0,), 1, 0, 276)
    yield "decay 1, T 1, steady rise 0", one_job(0, 0, 1, 1), (0,), WORDS, BYTES, ((0,), 1, 0, 1)
    yield "decay 65536, T 1234", one_job(10000, 2000, 1234, 65536), (0,), WORDS, BYTES, ((0,), 1, 0, 1234)
    yield "two equal levels, free changes", full(1, 2, b"a", 1, 0), (1,), WORDS, BYTES, ((0,), 1, 0, 20000)
    large = with_head(full(64, 8, b"x", 1, 0), start=0, W=63, g=1, C=127, h=1)
    assert Frame(SHEET).need() == 1144 and Frame(large).need() == 4194304
    yield "need 4194304", large, [7] * 64, WORDS, BYTES, (8, 0, 0)
    yield "need 4194304 with W 64", with_head(large, W=64), [7] * 64, WORDS, BYTES, (7, 0, 0)


def planned_with():
    """The borders of lent memory, and 64 jobs."""
    same = (1, 0), 49, 76, 2250
    for words, size, want in (
        (1144, 64, same),
        (1143, 64, (8, 0, 0)),
        (0, 64, (8, 0, 0)),
        (16384, 2, same),
        (16384, 1, (9, 0, 0)),
        (16384, 0, (9, 0, 0)),
        (1144, 2, same),
        (1143, 1, (8, 0, 0)),
    ):
        yield "words %d, bytes %d" % (words, size), SHEET, (1, 0), words, size, want
    yield "D 48, bytes 1: 9 before 10", with_head(SHEET, D=48), (1, 0), WORDS, 1, (9, 0, 0)
    frame = long_frame()
    levels = tuple(Frame(frame).plan(Frame(frame).start())[1])
    yield "64 jobs", frame, levels, WORDS, BYTES, (levels, 1270, 20, 105)
    yield "64 jobs, bytes 63", frame, levels, WORDS, 63, (9, 0, 0)


def rounded_rises():
    """Steady rises at and next to exact halves: a job of decay 0 ends at its level's, and one above 20000 is out of its range."""
    for exact, power, resistance, rise in (
        ("0.4999", 4999, 1, 0),
        ("0.5", 5000, 1, 0),
        ("0.5001", 5001, 1, 1),
        ("1.4999", 14999, 1, 1),
        ("1.5", 15000, 1, 2),
        ("2.5", 25000, 1, 2),
        ("2.5001", 25001, 1, 3),
        ("3.5", 35000, 1, 4),
        ("274.4999", 5501, 499, 274),
        ("274.5002", 2974, 923, 275),
        ("275.4999", 7849, 351, 275),
        ("19998.5", 39997, 5000, 19998),
        ("19999.4998", 27658, 7231, 19999),
        ("19999.5", 39999, 5000, 20000),
        ("20000.4997", 17291, 11567, 20000),
        ("20000.5", 40001, 5000, 20000),
        ("20000.5001", 49889, 4009, 20001),
        ("20001.4999", 31267, 6397, 20001),
        ("20001.5", 40003, 5000, 20002),
    ):
        want = ((0,), 1, 0, rise) if rise <= 20000 else (4, 3, 2)
        yield "steady rise %s: P %d, R %d" % (exact, power, resistance), one_job(power, resistance, 0, 0), (0,), WORDS, BYTES, want


def planned_by_halves():
    """Plans that an exact half decides: 274.5 and 275.5 beside C, and document 01's sheet with halves next to its steady rises."""
    for power, resistance, limit, want in (
        (1500, 1830, 274, ((0,), 1, 0, 274)),
        (1500, 1830, 273, 10),
        (1450, 1900, 276, ((0,), 1, 0, 276)),
        (1450, 1900, 275, 10),
    ):
        note = "steady rise of P %d, R %d, C %d" % (power, resistance, limit)
        yield note, with_head(one_job(power, resistance, 0, 0), C=limit), (0,), WORDS, BYTES, want
    same, warmer, slow = ((1, 0), 49, 76, 2250), ((1, 0), 49, 76, 2251), ((0, 0), 58, 45, 1750)
    for note, low, high, figures, want in (
        ("3999.5", 8000, 15998, {}, same),
        ("4000.5", 8000, 16002, {}, same),
        ("4001.5, log ends at 2501", 8000, 16006, {}, 10),
        ("4001.5, C 2501", 8000, 16006, {"C": 2501}, warmer),
        ("4000.5, D 58", 8000, 16002, {"D": 58}, same),
        ("4001.5, D 58", 8000, 16006, {"D": 58}, slow),
        ("2000.5 at level 0", 8002, 16000, {}, same),
        ("2001.5 at level 0", 8006, 16000, {}, warmer),
    ):
        sheet = changed(3, 2, low, changed(4, 2, high, with_head(SHEET, R=2500, **figures)))
        yield "the sheet, steady rise " + note, sheet, (0, 1), WORDS, BYTES, want


def read_after(**figures):
    """The reading after the first job of document 01's plan, some of its figures changed."""
    names = "done", "level", "time", "energy", "temperature"
    return tuple(figures.get(name, value) for name, value in zip(names, READING))


def read_borders():
    """Each figure of a reading at both sides of its borders, on document 01's sheet: D 50, W 100, C 2500, g 10."""
    last, most = 4294967295, 2 * 10**9
    for name, wants in (
        ("done", {0: 10, 1: ((0,), 49, 76, 2250), 2: 13, last: 13}),
        ("level", {0: ((0,), 48, 73, 2250), 1: ((0,), 49, 76, 2250), 2: 14, last: 14}),
        ("time", {21: ((0,), 50, 76, 2250), 22: 10, 50: 10, 51: 10, most: 10, most + 1: 14, last: 14}),
        ("energy", {70: ((0,), 49, 98, 2250), 71: 10, 100: 10, 101: 10, most: 10, most + 1: 14, last: 14}),
        ("temperature", {0: ((1,), 35, 88, 2000), 2500: ((0,), 49, 76, 2250), 2501: 5, 20000: 5, 20001: 14, last: 14}),
    ):
        for value, want in wants.items():
            yield "afresh, %s %d" % (name, value), SHEET, WORDS, BYTES, read_after(**{name: value}), want


def read_lent():
    """The borders of lent memory, which the jobs done move."""
    start, frame = (0, 0, 0, 0, 1000), long_frame()
    for sheet, words, size, reading, want in (
        (SHEET, 1144, 1, READING, ((0,), 49, 76, 2250)),
        (SHEET, 1143, 1, READING, 8),
        (SHEET, 1144, 0, READING, 9),
        (SHEET, 1144, 2, start, ((1, 0), 49, 76, 2250)),
        (SHEET, 1144, 1, start, 9),
        (SHEET, 1144, 0, read_after(done=2), 13),
        (SHEET, 1144, 0, read_after(done=4294967295), 13),
        (frame, 16128, 1, (63, 0, 1250, 19, 108), ((0,), 1270, 20, 105)),
        (frame, 16127, 1, (63, 0, 1250, 19, 108), 8),
        (frame, 16128, 0, (63, 0, 1250, 19, 108), 9),
        (frame, 16128, 31, (32, 1, 609, 12, 312), 9),
    ):
        yield "afresh, words %d, bytes %d, done %d" % (words, size, reading[0]), sheet, words, size, reading, want


def read_order():
    """Which refusal comes first where several apply."""
    large = with_head(full(64, 8, b"x", 1, 0), start=0, W=64, g=1, C=127, h=1)
    wrong = 2, 2, 2000000001, 2000000001, 20001
    for note, sheet, words, size, reading, want in (
        ("version 9 and all else wrong", changed(1, 2, 9), 0, 0, wrong, (4, 1, 2)),
        ("both kinds of 5", with_head(SHEET, start=2501), WORDS, BYTES, read_after(temperature=2501), (5, 2, 8)),
        ("7 and 8", large, 0, 0, wrong, 7),
        ("8 and 9", SHEET, 1143, 0, READING, 8),
        ("8 and 13", SHEET, 1143, 0, wrong, 8),
        ("9 and 14", SHEET, WORDS, 0, read_after(level=2), 9),
        ("9 and 5", SHEET, WORDS, 0, read_after(temperature=2501), 9),
        ("9 and 10", SHEET, WORDS, 0, read_after(time=51), 9),
        ("13 and 14", SHEET, WORDS, 0, wrong, 13),
        ("13 and 5", SHEET, WORDS, BYTES, read_after(done=2, temperature=2501), 13),
        ("13 and 10", SHEET, WORDS, BYTES, read_after(done=2, time=51), 13),
        ("14 by the level and 5", SHEET, WORDS, BYTES, read_after(level=2, temperature=2501), 14),
        ("14 by the time and 5", SHEET, WORDS, BYTES, read_after(time=2000000001, temperature=2501), 14),
        ("14 by the energy and 5", SHEET, WORDS, BYTES, read_after(energy=2000000001, temperature=2501), 14),
        ("5 and 10", SHEET, WORDS, BYTES, read_after(time=51, energy=101, temperature=2501), 5),
    ):
        yield "afresh, " + note, sheet, words, size, reading, want


def read_figures():
    """What readings do to a plan: raised before the next job, they count as read in the totals."""
    most, free, coarse = 2 * 10**9, full(3, 2, b"a", 10**7, 0), with_head(SHEET, h=1200)
    latest, odd = with_head(SHEET, D=most), with_head(free, g=most - 1)
    hot = changed(8, 4, 32768, with_head(full(2, 1, b"a", 1, 0), start=0, R=0, h=19999))
    halves = changed(4, 2, 16000, with_head(SHEET, R=2500))
    for note, sheet, reading, want in (
        ("energy 61 is raised to 70, the total is not", SHEET, read_after(energy=61), ((0,), 49, 89, 2250)),
        ("energy 71 leaves enough, raised to 80 it does not", SHEET, read_after(energy=71), 10),
        ("h 1200, temperature 2400", coarse, read_after(temperature=2400), ((0,), 49, 76, 2200)),
        ("h 1200, temperature 2401 is raised to 3600", coarse, read_after(temperature=2401), 10),
        ("cooler and faster", SHEET, read_after(temperature=1000), ((1,), 35, 88, 2500)),
        ("nothing done, energy 1", SHEET, (0, 0, 0, 1, 1000), ((1, 0), 49, 77, 2250)),
        ("nothing done, W 78, energy 1", with_head(SHEET, W=78), (0, 0, 0, 1, 1000), 10),
        ("nothing done, level 1", SHEET, (0, 1, 0, 0, 1000), ((1, 0), 47, 73, 2250)),
        ("D 2000000000, time 1999999971", latest, read_after(time=1999999971), ((0,), 2000000000, 76, 2250)),
        ("D 2000000000, time 1999999972", latest, read_after(time=1999999972), 10),
        ("D 2000000000, time 1, no way", with_head(latest, W=0), read_after(time=1, energy=0), 10),
        ("the highest figures, first of equal lists", free, (1, 1, most - 20000000, most, 20000), ((0, 0), most, most, 20000)),
        ("the highest figures, time one above", free, (1, 1, most - 19999999, most, 20000), 10),
        ("g 1999999999, energy 1999999999", odd, (1, 1, 0, most - 1, 20000), ((0, 0), 20000000, most - 1, 20000)),
        ("g 1999999999, energy 2000000000", odd, (1, 1, 0, most, 20000), 10),
        ("temperature 20000 is raised to 39998", hot, (1, 0, 0, 0, 20000), ((0,), 1, 0, 10000)),
        ("steady rise 2000.5", changed(3, 2, 8002, halves), READING, ((0,), 49, 76, 2250)),
        ("steady rise 2001.5", changed(3, 2, 8006, halves), READING, ((0,), 49, 76, 2251)),
    ):
        yield "afresh, " + note, sheet, WORDS, BYTES, reading, want


def kept():
    """Readings of a plan that is kept: the answer ends no later. One above, in time, energy or temperature, it may be 10."""
    tight, slow, frame = with_head(SHEET, D=47, W=63, C=2750), with_head(SHEET, C=2499, D=58), long_frame()
    sixteen = 0, 0, 0, 0, 0, 0, 1, 1, 0, 0, 0, 0, 0, 0, 0, 0
    sooner = 0, 1, 1, 0, 0, 0, 0, 0, 0, 0, 0, 0, 1, 1, 0, 1, *sixteen
    for note, sheet, reading, want in (
        ("nothing done", tight, (0, 0, 0, 0, 1000), ((0, 1), 47, 63, 2750)),
        ("nothing done, time one above: 10", tight, (0, 0, 1, 0, 1000), 10),
        ("nothing done, energy one above: 10", tight, (0, 0, 0, 1, 1000), 10),
        ("nothing done, temperature one above: 10", tight, (0, 0, 0, 0, 1001), 10),
        ("1 done", tight, (1, 0, 30, 20, 1500), ((1,), 47, 63, 2750)),
        ("1 done, time one below", tight, (1, 0, 29, 20, 1500), ((1,), 46, 63, 2750)),
        ("1 done, time one above: 10", tight, (1, 0, 31, 20, 1500), 10),
        ("1 done, energy one below", tight, (1, 0, 30, 19, 1500), ((1,), 47, 62, 2750)),
        ("1 done, energy one above: 10", tight, (1, 0, 30, 21, 1500), 10),
        ("1 done, temperature one below", tight, (1, 0, 30, 20, 1499), ((1,), 47, 63, 2750)),
        ("1 done, temperature one above: 10", tight, (1, 0, 30, 20, 1501), 10),
        ("C 2499 and D 58", slow, (1, 0, 30, 20, 1500), ((0,), 58, 45, 1750)),
        ("C 2499 and D 58, another level: 10", slow, (1, 1, 30, 20, 1500), 10),
        ("32 of 64 done: ends 2 sooner", frame, (32, 1, 609, 12, 312), (sooner, 1268, 20, 105)),
        ("48 of 64 done", frame, (48, 1, 929, 17, 424), (sixteen, 1270, 20, 105)),
        ("48 of 64 done, time one above: 10", frame, (48, 1, 930, 17, 424), 10),
        ("48 of 64 done, energy one above: 10", frame, (48, 1, 929, 18, 424), 10),
    ):
        yield "afresh, kept plan, " + note, sheet, WORDS, BYTES, reading, want


def check(cases):
    """Holds the planner here to the answers: a plan's levels, time, energy and temperature, or a refusal, which may be its number
    alone. A case has a reading where it is planned afresh."""
    for note, *lent, want in cases:
        refusal, figures, levels, _ = plan(*lent)
        assert (refusal if any(refusal) else (levels, *figures)) == ((want, 0, 0) if isinstance(want, int) else want), note


def main():
    from_start = [case for group in (planned, planned_with, rounded_rises, planned_by_halves) for case in group()]
    afresh = [case for group in (read_borders, read_lent, read_order, read_figures, kept) for case in group()]
    check((note, sheet, words, size, want) for note, sheet, _, words, size, want in from_start)
    check(afresh)
    cases = [(*case, WORDS, BYTES, READING) for group in (printed, edges, forms, lines) for case in group()]
    cases += [(*case[:-1], READING) for case in from_start]
    cases += [(note, sheet, (), *lent) for note, sheet, *lent, _ in afresh]
    data = out = b""
    for note, sheet, levels, words, size, reading in cases:
        numbers = b"\t".join(b"%d" % x for x in (words, size, *reading))
        parts = note.encode(), sheet, bytes(levels), numbers
        assert not any(b"\f" in part for part in parts)
        data += b"".join(part + b"\f" for part in parts)
        out += answer(*parts[:3], words, size, reading)
    with open("crates/cases/stdin", "wb") as file:
        file.write(data)
    with open("crates/cases/stdout", "wb") as file:
        file.write(out)
    print(len(cases), "cases,", len(data), "bytes")


main()
