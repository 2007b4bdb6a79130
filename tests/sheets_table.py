"""WorldFIP sheets, each family aimed at one rule."""

import math

from sheet_records import BILLION, record, sheet


def worldfip_sheet(exchange, variables):
    return sheet([(5, exchange)] + [(6, *v) for v in variables])


def identifiers(rng, count):
    ids = rng.sample(range(65_536), count)
    how = rng.randrange(3)
    if how == 0:
        ids.sort(reverse=True)
    elif how == 1:
        ids.sort()
    return ids


def named(rng, periods):
    return list(zip(identifiers(rng, len(periods)), periods))


def demand(microcycle, periods):
    """Requests in each row on average, rounded up: the fewest slots that can do."""
    multiple = 1
    for p in periods:
        multiple = multiple * p // math.gcd(multiple, p)
    return -(-sum(multiple // p for p in periods) * microcycle // multiple)


def exchange_for(rng, microcycle, slots):
    """An exchange of which `slots` fit a microcycle, if there is one."""
    greatest = min(1_000_000, microcycle // max(1, slots))
    return rng.choice([max(1, greatest), max(1, greatest - greatest // 50)])


def worldfip_harmonic(rng):
    """Periods that divide one another; slots around the fewest that can do."""
    microcycle = rng.choice([1000, 4096, 10_000, 100_000])
    top = rng.choice([0, 1, 2, 3, 5, 7])
    periods = [microcycle << rng.randint(0, top) for _ in range(rng.choice([1, 2, 5, 9, 20, 64]))]
    real = math.gcd(*periods)
    slots = demand(real, periods) + rng.choice([-1, -1, 0, 0, 0, 1, 3])
    return worldfip_sheet(exchange_for(rng, real, slots), named(rng, periods))


def worldfip_mixed(rng):
    """Periods from small factors, so that rows are many and partly empty."""
    microcycle = rng.choice([1, 7, 100, 1000, 12_345])
    factors = rng.choice([[1, 2, 3, 4, 6, 12], [2, 3, 5], [4, 6, 9, 10, 15], [5, 7, 11], [8, 9, 25]])
    periods = [microcycle * rng.choice(factors) for _ in range(rng.randint(1, 12))]
    real = math.gcd(*periods)
    slots = demand(real, periods) + rng.choice([-1, 0, 0, 0, 0, 1, 2, 5])
    return worldfip_sheet(exchange_for(rng, real, slots), named(rng, periods))


def worldfip_one_slot(rng):
    microcycle = rng.choice([1, 3, 500])
    periods = [microcycle * rng.choice([2, 4, 8, 16]) for _ in range(rng.randint(1, 6))]
    real = math.gcd(*periods)
    return worldfip_sheet(real, named(rng, periods))


def worldfip_many_slots(rng):
    """More slots than there could be variables."""
    microcycle = rng.choice([64, 65, 128, 1000, 1_000_000, BILLION // 4])
    periods = [microcycle * rng.choice([1, 2, 4]) for _ in range(rng.choice([1, 63, 64]))]
    exchange = rng.choice([1, 1, max(1, min(1_000_000, microcycle // 65))])
    return worldfip_sheet(exchange, named(rng, periods))


def worldfip_full_row(rng):
    """Equal periods only: one row, which ends in a miss if slots are too few."""
    period = rng.choice([640, 10_000, BILLION])
    count = rng.choice([1, 2, 10, 63, 64])
    slots = max(1, count + rng.choice([-1, -1, 0, 1]))
    exchange = min(1_000_000, period // slots)
    return worldfip_sheet(exchange, named(rng, [period] * count))


def worldfip_last_row(rng):
    """Short periods take every slot; the longest waits until the table ends."""
    microcycle = 1000
    slots = rng.choice([1, 2, 3])
    length = rng.choice([2, 4, 6])
    periods = [microcycle] * slots + [microcycle * length] * rng.choice([1, 2])
    variables = named(rng, periods)
    rng.shuffle(variables)
    return worldfip_sheet(microcycle // slots, variables)


def worldfip_many_rows(rng):
    """Row counts around the limit of 4,096."""
    rows = rng.choice([4096, 4096, 4095, 4094, 4097, 4098, 4100, 4608, 8192])
    factors = [f for f in range(1, rows + 1) if rows % f == 0]
    microcycle = rng.choice([1, 10, 100_000])
    picked = [rng.choice(factors) for _ in range(rng.choice([1, 3, 10, 62]))]
    periods = [microcycle * f for f in [1, rows] + picked]
    rng.shuffle(periods)
    slots = demand(microcycle, periods) + rng.choice([0, 1, 1])
    return worldfip_sheet(exchange_for(rng, microcycle, slots), named(rng, periods))


PRIMES = [p for p in range(2, 400) if all(p % q for q in range(2, p))]


def worldfip_huge(rng):
    """A least common multiple that needs far more than 64 bits."""
    count = rng.choice([8, 20, 64])
    how = rng.randrange(3)
    if how == 0:
        periods = PRIMES[:count]
    elif how == 1:
        periods = [rng.randint(BILLION - 5_000, BILLION) for _ in range(count)]
    else:
        periods = [1000 * p * p for p in rng.sample(PRIMES, count)]
    rng.shuffle(periods)
    return worldfip_sheet(rng.choice([1, 1, 1, 1000]), named(rng, periods))


# coprime periods whose product, kept in 64 bits (the first six) or in 32 (the
# rest), comes out as a small number of rows
WRAPPING = [
    (999_999_527, 999_999_503, 69_034_591, 104_559_193, 25),
    (999_999_733, 999_999_527, 306_582_116, 437_776_731),
    (999_999_677, 999_999_607, 929_145_127, 52_888_377),
    (999_999_739, 999_999_587, 418_490_837, 314_290_939),
    (999_999_757, 999_999_587, 320_698_421, 89_589_887),
    (999_999_937, 999_999_503, 648_395_131, 396_840_354),
    (999_999_937, 362_336_963),
    (1_000_003, 764_519_065),
    (123_456_791, 613_709_134),
]


def worldfip_wrapping(rng):
    periods = list(rng.choice(WRAPPING))
    rng.shuffle(periods)
    # a last period of 1 leaves the multiple as it is, so that a limit looked at
    # only there meets the wrapped number
    periods += rng.choice([[], [1]])
    return worldfip_sheet(1, named(rng, periods))


def worldfip_no_fit(rng):
    """A microcycle just below one exchange, or just enough."""
    microcycle = rng.choice([1, 2, 100, 999_999])
    periods = [microcycle * rng.choice([1, 2, 3, 4]) for _ in range(rng.randint(1, 4))]
    real = math.gcd(*periods)
    exchange = min(1_000_000, real + rng.choice([0, 1, 1, 1, 1_000_000]))
    return worldfip_sheet(exchange, named(rng, periods))


def worldfip_over(rng):
    """The 65th variable, with a new identifier or one met before."""
    ids = rng.sample(range(65_536), 65)
    if rng.random() < 0.5:
        ids[64] = rng.choice(ids[:64])
    body = worldfip_sheet(1, [(i, 10_000) for i in ids])
    return body + rng.choice([b"", record(6, 0, 1), rng.randbytes(20)])


def worldfip_repeated(rng):
    ids = rng.sample(range(65_536), rng.choice([2, 3, 10, 64]))
    at = rng.randrange(1, len(ids))
    ids[at] = rng.choice(ids[:at])
    periods = [1000 * rng.choice([1, 2, 4]) for _ in ids]
    return worldfip_sheet(rng.choice([1, 100]), list(zip(ids, periods)))
