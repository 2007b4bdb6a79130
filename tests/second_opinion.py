"""A second opinion on sheets, texts, captures and paths: pages 01 and 02 written again in plain Python.

It shares no code with the planner, so that the two can only agree where both
follow the page. It favours the page's own words over speed: the refined
figure is worked out by the formula with its minus signs, and the WorldFIP
table with lists of pending requests.

As a command it reads a sheet from standard input and writes the report; with the names of a sheet and of a
capture it writes the report of the capture. With --urgent before them it is the report of urgent requests first.
A sheet may be given as text or as bytes.
"""

import math
import re
import sys
from collections import namedtuple

# ---------------------------------------------------------------- answers

Refusal = namedtuple("Refusal", "number place")

# head: the first record's fields; edition: of the P-NET rule, 1 where none is written; messages: the longest message of each master of a
# ring; streams: one tuple per stream or variable, of its fields, and for P-NET always with J at the end; records: kind and fields of every
# record as it stands
Sheet = namedtuple("Sheet", "kind head edition messages streams records")

# one number for each of the masters 1..N
PnetPlan = namedtuple("PnetPlan", "bound refined rounds")
# one number for each stream, in sheet order; place: in its master's order of urgency, from 1
UrgentPlan = namedtuple("UrgentPlan", "place figure rounds")
ProfibusPlan = namedtuple("ProfibusPlan", "ttr stream")
# rank: variable numbers (from 1, in sheet order), best rank first
WorldfipPlan = namedtuple("WorldfipPlan", "microcycle slots rows rank")

# what a capture shows of each stream: master and bound, then answers, largest response, answers above the
# bound and requests left open
Shown = namedtuple("Shown", "master bound answers largest above left")

# bounds: R of each segment's sender; total: what the path costs
Crossed = namedtuple("Crossed", "bounds total")

# place: the place just after the record
Written = namedtuple("Written", "place record")


# ---------------------------------------------------------------- units


def us_up(bp):
    """A bound in bp as us, rounded up; one bp is 625/48 us."""
    return -(-bp * 625 // 48)


def ns_up(bp):
    """A bound in bp as ns, rounded up; at 76,800 bit/s one bp is 78,125/6 ns."""
    return -(-bp * 10**9 // 76_800)


def bp_down(us):
    """A deadline in us as bp, rounded down."""
    return us * 48 // 625


# ---------------------------------------------------------------- records

WIDTHS = {
    1: (1,),
    2: (1, 2, 4, 4),
    3: (1, 4, 4),
    4: (1, 4, 4),
    5: (4,),
    6: (2, 4),
    7: (1, 2, 4, 4, 4),
    8: (1,),
    9: (1, 4),
    10: (1, 4),
}
FIRST_KINDS = (1, 3, 5, 9)
# page 02, Ask 8: read, and no longer written
RETIRED = (3,)
# a bus by the kind of its first record on page 01: a ring is of kind 3 or 9
BUS = {1: 1, 3: 3, 5: 5, 9: 3}
# page 02, Asks 8 and 10: what may stand between a first record and the streams, and nowhere else; kind 8 just behind the first record
SETTING_KINDS = {1: (8,), 3: (), 5: (), 9: (10,)}
# the streams or variables that follow
STREAM_KINDS = {1: (2, 7), 3: (4,), 5: (6,), 9: (4,)}
# page 02, Ask 14: how the line of a record begins, and what stands behind the number of each field; kind 3 has no line
WORDS = {
    1: "pnet-segment",
    2: "pnet-stream",
    4: "profibus-stream",
    5: "worldfip-exchange",
    6: "worldfip-variable",
    7: "pnet-jitter-stream",
    8: "pnet-edition",
    9: "profibus-ring",
    10: "profibus-message",
}
UNITS = {
    1: ("",),
    2: ("", " bp", " bp", " bp"),
    4: ("", " bp", " bp"),
    5: (" us",),
    6: ("", " us"),
    7: ("", " bp", " bp", " bp", " bp"),
    8: ("",),
    9: ("", " bp"),
    10: ("", " bp"),
}

BILLION = 1_000_000_000
LATENCY_LIMIT = 100_000
MESSAGE_LIMIT = 100_000
MASTERS_LIMIT = 32

STREAMS_LIMIT = 800
STREAMS_LIMIT_OF_MASTER = 80
VARIABLES_LIMIT = 64


def body_length(kind):
    return sum(WIDTHS[kind])


def fields_of(kind, body):
    fields = []
    at = 0
    for width in WIDTHS[kind]:
        fields.append(int.from_bytes(body[at : at + width], "big"))
        at += width
    return tuple(fields)


def record_of(kind, fields):
    return bytes([kind]) + b"".join(number.to_bytes(width, "big") for number, width in zip(fields, WIDTHS[kind]))


def pnet_stream(kind, fields):
    """Master, C, T, D and J: kind 2 means J = 0."""
    return fields if kind == 7 else (*fields, 0)


def in_range(kind, fields, masters=MASTERS_LIMIT, message=MESSAGE_LIMIT):
    """Whether the fields keep the page's ranges.

    `masters` and `message` are what another record says (N or n, and the
    longest message of the record's master); the writer, which sees one record
    alone, leaves them at their greatest.
    """
    if kind == 1:
        (n,) = fields
        return 1 <= n <= MASTERS_LIMIT
    if kind in STREAM_KINDS[1]:
        master, c, t, d, j = pnet_stream(kind, fields)
        return (
            1 <= master <= masters
            and 1 <= c <= 1548
            and 1 <= t <= BILLION
            and 0 <= j <= t - 1
            and 1 <= d <= t - j
        )
    if kind == 3:
        n, latency, longest = fields
        return (
            1 <= n <= MASTERS_LIMIT
            and 1 <= latency <= LATENCY_LIMIT
            and 1 <= longest <= MESSAGE_LIMIT
        )
    if kind == 4:
        master, c, d = fields
        return 1 <= master <= masters and 1 <= c <= message and 1 <= d <= BILLION
    if kind == 9:
        n, latency = fields
        return 1 <= n <= MASTERS_LIMIT and 1 <= latency <= LATENCY_LIMIT
    if kind == 10:
        master, longest = fields
        return 1 <= master <= masters and 1 <= longest <= MESSAGE_LIMIT
    if kind == 5:
        (e,) = fields
        return 1 <= e <= 1_000_000
    if kind == 8:
        (edition,) = fields
        return edition in (1, 2)
    identifier, period = fields
    return 0 <= identifier <= 0xFFFF and 1 <= period <= BILLION


# ---------------------------------------------------------------- reading


def in_position(kind, before):
    """Whether a record of this kind may stand behind these."""
    if not before:
        return kind in FIRST_KINDS
    head_kind, last = before[0][0], before[-1][0]
    if kind in SETTING_KINDS[head_kind]:
        return len(before) == 1 or (kind == 10 and last == 10)
    return kind in STREAM_KINDS[head_kind]


def read(data):
    """The sheet, or the first refusal among 1 to 7 and 20 in the page's order."""
    if len(data) == 0:
        return Refusal(1, 0)
    head_kind = None
    head = None
    edition = 1
    messages = {}
    streams = []
    records = []
    per_master = {}
    identifiers = set()
    place = 0
    while place < len(data):
        kind = data[place]
        if kind not in WIDTHS:
            return Refusal(2, place)
        if not in_position(kind, records):
            return Refusal(3, place)
        end = place + 1 + body_length(kind)
        if end > len(data):
            return Refusal(1, place)
        fields = fields_of(kind, data[place + 1 : end])

        if head_kind is None:
            if not in_range(kind, fields):
                return Refusal(4, place)
            head_kind, head = kind, fields
            if kind == 3:
                messages = dict.fromkeys(range(1, head[0] + 1), head[2])
        elif kind == 8:
            if not in_range(kind, fields):
                return Refusal(4, place)
            (edition,) = fields
        elif kind == 10:
            if not in_range(kind, fields, masters=head[0]):
                return Refusal(4, place)
            master, longest = fields
            if master in messages:
                return Refusal(20, place)
            messages[master] = longest
        elif kind == 6:
            if not in_range(kind, fields):
                return Refusal(4, place)
            if len(streams) == VARIABLES_LIMIT:
                return Refusal(5, place)
            if fields[0] in identifiers:
                return Refusal(7, place)
            identifiers.add(fields[0])
            streams.append(fields)
        else:
            master = fields[0]
            # a longest message that is missing counts as 100,000
            if not in_range(kind, fields, masters=head[0], message=messages.get(master, MESSAGE_LIMIT)):
                return Refusal(4, place)
            if lacks_message(head_kind, head, messages):
                return Refusal(20, place)
            count = per_master.get(master, 0)
            if len(streams) == STREAMS_LIMIT or count == STREAMS_LIMIT_OF_MASTER:
                return Refusal(5, place)
            per_master[master] = count + 1
            streams.append(pnet_stream(kind, fields) if head_kind == 1 else fields)
        records.append((kind, fields))
        place = end
    if lacks_message(head_kind, head, messages):
        return Refusal(20, len(data))
    if not streams:
        return Refusal(6, len(data))
    return Sheet(head_kind, head, edition, messages, streams, records)


def lacks_message(head_kind, head, messages):
    """Whether a master of this ring, which has these longest messages so far, is without one; no other sheet has one to miss."""
    return BUS[head_kind] == 3 and any(master not in messages for master in range(1, head[0] + 1))


def read_for(data, bus):
    sheet = read(data)
    if isinstance(sheet, Sheet) and BUS[sheet.kind] != bus:
        return Refusal(3, 0)
    return sheet


# ---------------------------------------------------------------- writing


def write_record(buffer_length, place, kind, numbers):
    """The record's bytes and the place just after it, or 2, 4 or 13."""
    if kind not in WIDTHS or kind in RETIRED:
        return Refusal(2, place)
    if len(numbers) != len(WIDTHS[kind]):
        raise ValueError("a record of kind %d has %d fields" % (kind, len(WIDTHS[kind])))
    if not in_range(kind, numbers):
        return Refusal(4, place)
    end = place + 1 + body_length(kind)
    if end >= 2**64:
        return Refusal(13, 0)
    if end > buffer_length:
        return Refusal(13, end)
    return Written(end, record_of(kind, numbers))


def rewrite_sheet(data, lent=None):
    """The sheet in kinds that are written, or the first refusal; `lent` is the length of the lent room.

    Page 02, Ask 8: a ring of kind 3 means M for every master, so that it is kind 9, then kind 10 for each master in ascending order, then its
    streams. Any other sheet is as it was.
    """
    sheet = read(data)
    if isinstance(sheet, Refusal):
        return sheet
    records = sheet.records
    if sheet.kind == 3:
        n, latency, longest = sheet.head
        records = [(9, (n, latency))] + [(10, (master, longest)) for master in range(1, n + 1)] + records[1:]
    made = b"".join(record_of(kind, fields) for kind, fields in records)
    if lent is not None and lent < len(made):
        return Refusal(13, len(made))
    return made


# ---------------------------------------------------------------- texts

# more than ten digits are too big for any field, however many there are
NUMBER = "(0|[1-9][0-9]{0,9})"
FORMS = {
    kind: re.compile(",".join([word] + [NUMBER + unit for unit in UNITS[kind]]).encode("ascii"))
    for kind, word in WORDS.items()
}
BEGINNINGS = tuple(word.encode("ascii") + b"," for word in WORDS.values())


def line_of(kind, fields):
    cells = [WORDS[kind]] + ["%d%s" % cell for cell in zip(fields, UNITS[kind])]
    return ",".join(cells).encode("ascii") + b"\n"


def export_sheet(data, lent=None):
    """The sheet as text, one record a line, or the first refusal; `lent` is the length of the lent room."""
    sheet = read(data)
    if isinstance(sheet, Refusal):
        return sheet
    if sheet.kind not in WORDS:
        return Refusal(2, 0)
    text = b"".join(line_of(kind, fields) for kind, fields in sheet.records)
    if lent is not None and lent < len(text):
        return Refusal(13, len(text))
    return text


def record_of_line(line):
    """The record's bytes, or nothing where the line, given without its end, is not of the form or a number is too big for its bytes."""
    for kind, form in FORMS.items():
        match = form.fullmatch(line)
        if match:
            numbers = [int(digits) for digits in match.groups()]
            held = all(number < 256**width for number, width in zip(numbers, WIDTHS[kind]))
            return record_of(kind, numbers) if held else None
    return None


def sheet_of(text):
    """The bytes that a text stands for, whatever reading says of them, or 23 at the first line that stands for no record."""
    # what is behind the last end of a line is a line without one
    *lines, unended = text.split(b"\n")
    records = []
    for number, line in enumerate(lines, start=1):
        records.append(record_of_line(line))
        if records[-1] is None:
            return Refusal(23, number)
    if unended:
        return Refusal(23, len(lines) + 1)
    return b"".join(records)


def import_text(text, lent=None):
    """The bytes of the sheet that a text stands for, or the first refusal; `lent` is the length of the lent room."""
    data = sheet_of(text)
    if isinstance(data, Refusal):
        return data
    sheet = read(data)
    if isinstance(sheet, Refusal):
        return sheet
    if lent is not None and lent < len(data):
        return Refusal(13, len(data))
    return data


def sheet_given(given):
    """The bytes of a sheet that the program is given as text or as bytes, or 23."""
    return sheet_of(given) if given.startswith(BEGINNINGS) else given


def export_given(given):
    """What `--export` makes of a sheet that it is given as text or as bytes."""
    data = sheet_given(given)
    return data if isinstance(data, Refusal) else export_sheet(data)


def rewrite_given(given):
    """What `--rewrite` makes of a sheet that it is given as text or as bytes."""
    data = sheet_given(given)
    return data if isinstance(data, Refusal) else rewrite_sheet(data)


# ---------------------------------------------------------------- P-NET

REACTION = 7
TOKEN_PASS = 40
UNUSED_VISIT = 10


def ceiling(a, b):
    return -(-a // b)


def charges(sheet):
    """H of each master, as the sheet's edition has it."""
    masters = range(1, sheet.head[0] + 1)
    cycles = {y: [stream[1] for stream in sheet.streams if stream[0] == y] for y in masters}
    hold = {y: REACTION + TOKEN_PASS + max(cycles[y]) if cycles[y] else UNUSED_VISIT for y in masters}
    if sheet.edition == 2:
        # every master is charged the largest H, one without streams too
        hold = dict.fromkeys(masters, max(hold.values()))
    return hold


def plan_pnet(data, lent=None):
    """Bounds, refined figures and rounds; `lent` holds the runs' three lengths."""
    sheet = read_for(data, 1)
    if isinstance(sheet, Refusal):
        return sheet
    (n,) = sheet.head
    if lent is not None and min(lent) < n:
        return Refusal(13, n)

    masters = range(1, n + 1)
    spacings = {y: [] for y in masters}
    for master, _, t, _, j in sheet.streams:
        spacings[master].append((t, j))
    hold = charges(sheet)
    turn = sum(hold.values())
    bound = {k: len(spacings[k]) * turn for k in masters}

    for number, (master, _, _, d, _) in enumerate(sheet.streams, start=1):
        if bound[master] > d:
            return Refusal(8, number)

    refined = {}
    rounds = {}
    for k in masters:
        s = len(spacings[k])
        if s == 0:
            refined[k] = 0
            rounds[k] = 0
            continue

        def right_side(w):
            value = s * turn
            for y in masters:
                if y != k:
                    # a request may have waited since R(y) before the window, and have come J late
                    a = sum(ceiling(w + bound[y] + j, t) for t, j in spacings[y])
                    value -= (s - min(s, a)) * (hold[y] - UNUSED_VISIT)
            return value

        m = 0
        w = 0
        following = right_side(w)
        while following != w:
            m += 1
            w = following
            following = right_side(w)
        assert m <= 1 + (n - 1) * s
        refined[k] = w
        rounds[k] = m

    return PnetPlan(
        [bound[k] for k in masters],
        [refined[k] for k in masters],
        [rounds[k] for k in masters],
    )


# ---------------------------------------------------------------- urgent requests first


def urgent_order(streams, master):
    """The master's streams, by their indices: the smaller D first, and equal ones as on the sheet."""
    own = [i for i, stream in enumerate(streams) if stream[0] == master]
    # sorting is stable
    return sorted(own, key=lambda i: streams[i][3])


def urgent_figure(turn, ahead, last, deadline):
    """x and its rounds, or nothing where the search comes above D; `ahead` holds T and J of each stream ahead."""
    blocked = 0 if last else 1
    m = 0
    x = turn
    while x <= deadline:
        following = turn * (1 + blocked + sum(ceiling(x + j, t) for t, j in ahead))
        if following == x:
            return x, m
        m += 1
        x = following
    return None


def plan_urgent(data, lent=None):
    """For each stream its place, its figure and its rounds; `lent` holds the runs' three lengths.

    The streams are searched in sheet order, and the first that is not accepted ends it: a search may be long.
    """
    sheet = read_for(data, 1)
    if isinstance(sheet, Refusal):
        return sheet
    streams = sheet.streams
    if lent is not None and min(lent) < len(streams):
        return Refusal(13, len(streams))
    turn = sum(charges(sheet).values())
    orders = {k: urgent_order(streams, k) for k in {stream[0] for stream in streams}}
    plan = UrgentPlan([], [], [])
    for i, (master, _, _, deadline, _) in enumerate(streams):
        order = orders[master]
        rank = order.index(i)
        ahead = [(streams[other][2], streams[other][4]) for other in order[:rank]]
        found = urgent_figure(turn, ahead, i == order[-1], deadline)
        if found is None:
            return Refusal(21, i + 1)
        for run, number in zip(plan, (rank + 1, *found)):
            run.append(number)
    return plan


# ---------------------------------------------------------------- PROFIBUS


def plan_profibus(data):
    """The largest TTR at which all streams pass, and what limits it; page 02, Ask 8: a turn has room for one longest message of each master."""
    sheet = read_for(data, 3)
    if isinstance(sheet, Refusal):
        return sheet
    latency = sheet.head[1]
    every_message = sum(sheet.messages.values())
    count = {}
    for master, _, _ in sheet.streams:
        count[master] = count.get(master, 0) + 1

    def first_failing(ttr):
        for number, (master, c, d) in enumerate(sheet.streams, start=1):
            if count[master] * (ttr + every_message) + c > d:
                return number
        return None

    failing = first_failing(latency)
    if failing is not None:
        return Refusal(9, failing)
    # every stream passes at L, so each of these quotients is at least L
    ttr = min((d - c) // count[master] - every_message for master, c, d in sheet.streams)
    assert first_failing(ttr) is None
    return ProfibusPlan(ttr, first_failing(ttr + 1))


# ---------------------------------------------------------------- WorldFIP

ROWS_LIMIT = 4096


def plan_worldfip(data, lent=None):
    """The table's rows as 64-bit numbers; `lent` is the run's length."""
    sheet = read_for(data, 5)
    if isinstance(sheet, Refusal):
        return sheet
    (exchange,) = sheet.head
    periods = [period for _, period in sheet.streams]

    microcycle = 0
    for period in periods:
        microcycle = math.gcd(microcycle, period)
    slots = microcycle // exchange
    if slots == 0:
        return Refusal(10, 0)

    multiple = 1
    for period in periods:
        multiple = multiple * period // math.gcd(multiple, period)
    row_count = multiple // microcycle
    if row_count > ROWS_LIMIT:
        return Refusal(11, 0)
    if lent is not None and lent < row_count:
        return Refusal(13, row_count)

    # sorting is stable, so equal periods keep the sheet's order
    rank = sorted(range(len(periods)), key=lambda v: periods[v])

    pending = []
    rows = []
    # the turn after the last row serves nothing; it is there for its misses
    for m in range(row_count + 1):
        due = [r for r, v in enumerate(rank) if m * microcycle % periods[v] == 0]
        for r in due:
            if r in pending:
                return Refusal(12, rank[r] + 1)
        if m == row_count:
            break
        pending = sorted(pending + due)
        served, pending = pending[:slots], pending[slots:]
        rows.append(sum(1 << r for r in served))
    return WorldfipPlan(microcycle, slots, rows, [v + 1 for v in rank])


# ---------------------------------------------------------------- captures

REQUEST, ANSWER = 16, 17
EVENT_LENGTH = 7
COUNTER = 2**32


def hear(capture, bounds):
    """For each stream its answers, largest response, answers above and left open, or the first refusal.

    Each stream's records are gathered first and its responses worked out afterwards, two by two: what is
    refused makes requests and answers alternate.
    """
    own = [[] for _ in bounds]
    for place in range(0, len(capture), EVENT_LENGTH):
        event = capture[place : place + EVENT_LENGTH]
        if event[0] not in (REQUEST, ANSWER):
            return Refusal(2, place)
        if len(event) < EVENT_LENGTH:
            return Refusal(1, place)
        stream = int.from_bytes(event[1:3], "big")
        if not 1 <= stream <= len(bounds):
            return Refusal(14, place)
        records = own[stream - 1]
        waiting = len(records) % 2 == 1
        if event[0] == ANSWER and not waiting:
            return Refusal(15, place)
        if event[0] == REQUEST and waiting:
            return Refusal(16, place)
        records.append(int.from_bytes(event[3:], "big"))
    figures = []
    for stamps, bound in zip(own, bounds):
        responses = [(later - earlier) % COUNTER for earlier, later in zip(stamps[::2], stamps[1::2])]
        figures.append(
            (len(responses), max(responses, default=0), sum(r > bound for r in responses), len(stamps) % 2)
        )
    return figures


def first_come(data):
    """The bound of each stream, its master's R, or the first refusal."""
    plan = plan_pnet(data)
    return plan if isinstance(plan, Refusal) else [plan.bound[stream[0] - 1] for stream in read(data).streams]


def urgent_first(data):
    """The figure x of each stream, or the first refusal."""
    plan = plan_urgent(data)
    return plan if isinstance(plan, Refusal) else plan.figure


def compare_capture(data, capture, lent=None, promised=first_come):
    """What a capture shows beside what a sheet is promised; `lent` is the length of the shortest lent run."""
    sheet = read_for(data, 1)
    if isinstance(sheet, Refusal):
        return sheet
    if lent is not None and lent < len(sheet.streams):
        return Refusal(13, len(sheet.streams))
    bounds = promised(data)
    if isinstance(bounds, Refusal):
        return bounds
    masters = [stream[0] for stream in sheet.streams]
    figures = hear(capture, bounds)
    if isinstance(figures, Refusal):
        return figures
    return [Shown(master, bound, *figure) for master, bound, figure in zip(masters, bounds, figures)]


def instants(capture):
    """Kind, stream and bp since the first record, of each record; nothing where two that follow each other are too far apart."""
    times, stamp, now = [], None, 0
    for place in range(0, len(capture), EVENT_LENGTH):
        before, stamp = stamp, int.from_bytes(capture[place + 3 : place + EVENT_LENGTH], "big")
        passed = 0 if before is None else (stamp - before) % COUNTER
        if passed >= COUNTER // 2:
            return None
        now += passed
        times.append((capture[place], int.from_bytes(capture[place + 1 : place + 3], "big"), now))
    return times


# ---------------------------------------------------------------- paths

GATEWAYS_LIMIT = 10
FORWARDING_LIMIT = 1_000_000


def first_refused(segments):
    """The first segment, from 1, whose sheet the planner refuses, with that refusal; or nothing. In the place of a sheet may stand its text's 23."""
    for number, (data, _) in enumerate(segments, start=1):
        plan = data if isinstance(data, Refusal) else plan_pnet(data)
        if isinstance(plan, Refusal):
            return number, plan
    return None


def cross_path(segments, times, deadline):
    """What a path of segments, each a sheet and the master that sends there, costs with its gateways' times."""
    refused = first_refused(segments)
    if refused:
        return refused[1]
    gateways = max(len(segments) - 1, 0)
    if not 1 <= gateways <= GATEWAYS_LIMIT:
        return Refusal(17, gateways)
    for number, time in enumerate(times, start=1):
        if not 0 <= time <= FORWARDING_LIMIT:
            return Refusal(4, number)
    if not 1 <= deadline <= BILLION:
        return Refusal(4, 0)
    bounds = []
    for number, (data, master) in enumerate(segments, start=1):
        if master not in [stream[0] for stream in read(data).streams]:
            return Refusal(18, number)
        bounds.append(plan_pnet(data).bound[master - 1])
    # the request goes forth, hop by hop; then the reply passes the gateways once more
    total = bounds[0]
    for time, bound in zip(times, bounds[1:]):
        total += time + bound
    total += sum(times)
    return Refusal(19, 0) if total > deadline else Crossed(bounds, total)


# ---------------------------------------------------------------- report


def refusal_line(refusal):
    number, place = refusal
    line = "refused %d" % number
    if number <= 7 or number == 20:
        line += " at byte %d" % place
    elif number in (8, 9, 21):
        line += " at stream %d" % place
    elif number == 12:
        line += " at variable %d" % place
    elif number == 23:
        line += " at line %d" % place
    return line


def report_lines(given):
    data = sheet_given(given)
    sheet = data if isinstance(data, Refusal) else read(data)
    if isinstance(sheet, Refusal):
        return [refusal_line(sheet)]

    if sheet.kind == 1:
        plan = plan_pnet(data)
        if isinstance(plan, Refusal):
            return [refusal_line(plan)]
        lines = ["P-NET segment"]
        figures = zip(plan.bound, plan.refined, plan.rounds)
        for master, (r, w, rounds) in enumerate(figures, start=1):
            if r != 0:
                lines.append(
                    "M%02d bound %d bp %d ns refined %d bp %d ns %d rounds"
                    % (master, r, ns_up(r), w, ns_up(w), rounds)
                )
        return lines

    if BUS[sheet.kind] == 3:
        plan = plan_profibus(data)
        if isinstance(plan, Refusal):
            return [refusal_line(plan)]
        return [
            "PROFIBUS ring",
            "TTR %d bp limited by stream %d" % (plan.ttr, plan.stream),
        ]

    plan = plan_worldfip(data)
    if isinstance(plan, Refusal):
        return [refusal_line(plan)]
    identifiers = [sheet.streams[v - 1][0] for v in plan.rank]
    lines = [
        "WorldFIP table",
        "microcycle %d us %d slots %d rows"
        % (plan.microcycle, plan.slots, len(plan.rows)),
    ]
    for m, row in enumerate(plan.rows):
        line = "row %d:" % m
        for r, identifier in enumerate(identifiers):
            if row >> r & 1:
                line += " %d" % identifier
        lines.append(line)
    return lines


def report(given):
    """The program's standard output for this sheet, byte for byte."""
    return "".join(line + "\n" for line in report_lines(given)).encode("ascii")


def urgent_lines(given):
    data = sheet_given(given)
    plan = data if isinstance(data, Refusal) else plan_urgent(data)
    if isinstance(plan, Refusal):
        return [refusal_line(plan)]
    streams = read(data).streams
    lines = ["P-NET urgent first"]
    for number, (stream, place, x, rounds) in enumerate(zip(streams, *plan), start=1):
        lines.append(
            "stream %d M%02d place %d figure %d bp %d ns %d rounds deadline %d bp"
            % (number, stream[0], place, x, ns_up(x), rounds, stream[3])
        )
    return lines + first_come_lines(data, streams, plan.figure)


def first_come_lines(data, streams, figures):
    """What first come makes of the sheet, where it refuses it: the first stream whose bound is above its deadline."""
    refused = plan_pnet(data)
    if not isinstance(refused, Refusal):
        return []
    assert refused.number == 8
    master, _, _, deadline, _ = streams[refused.place - 1]
    bound = sum(stream[0] == master for stream in streams) * sum(charges(read(data)).values())
    x = figures[refused.place - 1]
    return [
        "first come refused 8 at stream %d bound %d bp %d ns urgent %d bp %d ns deadline %d bp"
        % (refused.place, bound, ns_up(bound), x, ns_up(x), deadline)
    ]


def urgent_report(given):
    """The program's standard output for this sheet with urgent requests first, byte for byte."""
    return "".join(line + "\n" for line in urgent_lines(given)).encode("ascii")


CAPTURE_HEADS = {first_come: "P-NET capture", urgent_first: "P-NET capture urgent first"}


def capture_lines(given, capture, promised=first_come):
    data = sheet_given(given)
    # a sheet that is accepted beside an empty capture is refused by nothing but the capture
    sheet = data if isinstance(data, Refusal) else compare_capture(data, b"", promised=promised)
    if isinstance(sheet, Refusal):
        return [refusal_line(sheet)]
    shown = compare_capture(data, capture, promised=promised)
    if isinstance(shown, Refusal):
        return ["refused %d at capture byte %d" % shown]
    lines = [CAPTURE_HEADS[promised]]
    for number, one in enumerate(shown, start=1):
        lines.append(
            "stream %d M%02d bound %d bp %d ns largest %d bp %d ns %d answers %d above %d open"
            % (number, one.master, one.bound, ns_up(one.bound), one.largest, ns_up(one.largest), one.answers, one.above, one.left)
        )
    return lines + (capture_findings(data, capture, shown) or ["every answer within its bound"])


def in_streams(what, streams):
    return ["%s in %d streams, first stream %d" % (what, len(streams), streams[0])] if streams else []


def too_soon(streams, times):
    """The stream of each request that came too soon, in the order of the records.

    A request may stand up to J before its label, and labels of a stream are at least T apart; each is the earliest that there can be. So with J = 0 a
    request is too soon where it comes sooner than T after the one before. One that is too soon is its own label, and what follows goes by that.
    """
    early, labels = [], {}
    for kind, stream, now in times:
        if kind == REQUEST:
            _, _, t, _, j = streams[stream - 1]
            label = max(now, labels[stream] + t) if stream in labels else now
            if label - now > j:
                early.append(stream)
                label = now
            labels[stream] = label
    return early


def capture_findings(data, capture, shown):
    """The last lines of a capture's report that say what is wrong; none where nothing is."""
    found = in_streams("answers above the bound", [n for n, one in enumerate(shown, start=1) if one.above])
    times = instants(capture)
    if times is None:
        found.append(
            "records not in order of time, or none for %d bp %d ns or longer: ages and gaps not known"
            % (COUNTER // 2, ns_up(COUNTER // 2))
        )
    else:
        early = too_soon(read(data).streams, times)
        asked = {stream: now for kind, stream, now in times if kind == REQUEST}
        late = [n for n, one in enumerate(shown, start=1) if one.left and times[-1][2] - asked[n] > one.bound]
        found += in_streams("requests open beyond the bound", late)
        if early:
            found.append("requests sooner than their spacing allows %d times, first stream %d" % (len(early), early[0]))
    if not any(one.answers for one in shown):
        found.append("no answer in the whole capture")
    return found


def capture_report(given, capture, promised=first_come):
    """The program's standard output for this sheet and this capture, byte for byte."""
    return "".join(line + "\n" for line in capture_lines(given, capture, promised)).encode("ascii")


def status(lines):
    """The planner's exit status for these lines of a report: 1 for a refusal and for what is wrong in a capture, else 0."""
    if lines[0] in CAPTURE_HEADS.values():
        return 0 if lines[-1] == "every answer within its bound" else 1
    return 1 if lines[0].startswith("refused ") else 0


def path_lines(segments, times, deadline):
    segments = [(sheet_given(given), master) for given, master in segments]
    refused = first_refused(segments)
    if refused:
        number, refusal = refused
        return ["%s of segment %d" % (refusal_line(refusal), number)]
    crossed = cross_path(segments, times, deadline)
    if isinstance(crossed, Refusal):
        number, place = crossed
        where = {17: " at %d gateways", 18: " at segment %d", 4: " at gateway %d" if place else " at deadline"}
        words = where.get(number, "")
        return ["refused %d" % number + (words % place if "%" in words else words)]
    lines = ["P-NET path"]
    for number, ((_, master), bound) in enumerate(zip(segments, crossed.bounds), start=1):
        if number > 1:
            lines.append("gateway %d request %d bp reply %d bp" % ((number - 1,) + (times[number - 2],) * 2))
        lines.append("segment %d M%02d bound %d bp" % (number, master, bound))
    lines.append("total %d bp %d ns deadline %d bp" % (crossed.total, ns_up(crossed.total), deadline))
    return lines


def path_report(segments, times, deadline):
    """The program's standard output for this path, byte for byte."""
    return "".join(line + "\n" for line in path_lines(segments, times, deadline)).encode("ascii")


def main(names):
    urgent = names[:1] == ["--urgent"]
    names = names[urgent:]
    if len(names) == 2:
        data, capture = (open(name, "rb").read() for name in names)
        sys.stdout.buffer.write(capture_report(data, capture, urgent_first if urgent else first_come))
    else:
        sys.stdout.buffer.write((urgent_report if urgent else report)(sys.stdin.buffer.read()))


if __name__ == "__main__":
    main(sys.argv[1:])
