"""Cases in a row: the edges, then what the families make."""


def in_turn(edges, families, rng, count):
    """Yield `count` rows, each a name and what a test is given: the edges, then one of each family in turn, which makes one thing or a tuple."""
    given = 0
    for row in edges:
        if given == count:
            return
        yield row
        given += 1
    while given < count:
        family = families[given % len(families)]
        made = family(rng)
        yield ("%s %d" % (family.__name__, given),) + (made if isinstance(made, tuple) else (made,))
        given += 1
