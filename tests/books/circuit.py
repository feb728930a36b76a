"""The amplitude of a circuit: "the entry of the product, row output, column input".

Any circuit goes by the kept form of chform; where few strings are met it goes by brute force too, and both must agree.
"""
import chform
import vector

MOST_STRINGS = 64
MOST_STEPS = 120  # gates that brute force is tried on


class Disagreement(Exception):
    """The two methods of this checker differ."""


# how many amplitudes went by both methods, and how many by one
tally = {"both": 0, "one": 0}


def amplitude(width, given, wanted, circuit):
    """(power, phase), or None for zero."""
    kept = chform.after(width, given, circuit).amplitude(wanted)
    known, plain = (False, None) if len(circuit) > MOST_STEPS else vector.amplitude(given, wanted, circuit, MOST_STRINGS)
    if known and plain != kept:
        raise Disagreement(f"width {width}, {given} to {wanted}, gates {circuit}: {plain} by brute force, {kept} otherwise")
    tally["both" if known else "one"] += 1
    return kept
