"""Sheets to rewrite, the same for the same seed: rings of kind 3 above all, then any other, good or not, as bytes and as text."""

import random

import sheets
import sheets_edges
import sheets_ring
import sheets_table
import texts
from families import in_turn
from second_opinion import BUS


def edges(rng):
    """Those edges of the sheets that begin as a ring, and one of each other bus."""
    others = {kind for kind, bus in BUS.items() if bus != 3}
    for name, data in sheets_edges.edges(rng):
        kind = data[0] if data else None
        if BUS.get(kind) == 3 or kind in others:
            yield name, data
        others.discard(kind)


def any_sheet(rng):
    return rng.choice(sheets.FAMILIES)(rng)


FAMILIES = [
    *texts.RINGS, texts.ring, texts.ring, sheets_ring.profibus_over, sheets_ring.messages_missing, sheets_ring.messages_repeated, sheets_ring.ring_cut,
    sheets_table.worldfip_repeated, any_sheet, any_sheet, any_sheet, any_sheet, texts.short, texts.slipped, texts.misread,
]


def rewrites(seed, count):
    """Yield `count` pairs of a name and what is given: the bytes of a sheet, or a text."""
    rng = random.Random("rewrite %d" % seed)
    return in_turn(edges(rng), FAMILIES, rng, count)
