"""Sheets to compare planners on, the same for the same seed.

The first sheets stand at the edges of the page's rules, one by one. The rest
is drawn from families, each of which aims at one rule: a sheet drawn evenly
at random would almost always be refused for its first bytes.
"""

import random

from families import in_turn
from sheets_damaged import cut_short, damaged, edition_astray, field_edge, no_stream, noise, shuffled, wrong_kind
from sheets_edges import edges
from sheets_pnet import (
    pnet_busy_master, pnet_chain, pnet_jitter, pnet_jitter_counts, pnet_jitter_edge, pnet_late, pnet_links, pnet_many,
    pnet_other_edition, pnet_over, pnet_roomy, pnet_tight,
)
from sheets_ring import (
    above_own_message, messages_astray, messages_missing, messages_out_of_range, messages_repeated, profibus_below, profibus_exact, profibus_over,
    profibus_random, profibus_short, profibus_ties, ring_cut,
)
from sheets_table import (
    worldfip_full_row, worldfip_harmonic, worldfip_huge, worldfip_last_row, worldfip_many_rows, worldfip_many_slots,
    worldfip_mixed, worldfip_no_fit, worldfip_one_slot, worldfip_over, worldfip_repeated, worldfip_wrapping,
)

FAMILIES = [
    pnet_roomy, pnet_tight, pnet_busy_master, pnet_chain, pnet_links, pnet_late, pnet_many, pnet_over,
    pnet_jitter, pnet_jitter, pnet_jitter_counts, pnet_jitter_edge, pnet_jitter_edge, pnet_other_edition,
    profibus_random, profibus_exact, profibus_ties, profibus_below, profibus_short, profibus_over,
    messages_missing, messages_repeated, messages_astray, messages_out_of_range, above_own_message, ring_cut,
    worldfip_harmonic, worldfip_mixed, worldfip_one_slot, worldfip_many_slots,
    worldfip_full_row, worldfip_last_row, worldfip_many_rows, worldfip_huge,
    worldfip_wrapping, worldfip_no_fit, worldfip_over, worldfip_repeated,
    damaged, damaged, cut_short, shuffled, wrong_kind, edition_astray, noise, no_stream, field_edge, field_edge,
]


def sheets(seed, count):
    """Yield `count` pairs of a name and a sheet's bytes."""
    rng = random.Random(seed)
    return in_turn(edges(rng), FAMILIES, rng, count)
