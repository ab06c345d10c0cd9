"""The differences that docs/DIFFERENCES.md names, as the readers' versions show them.

A version that is listed must behave as it is listed. Versions are listed entry by entry, for not every one was seen with
each. Of a version that an entry does not list, what it does is reported and nothing fails: then docs/DIFFERENCES.md wants a
line more.
"""

AS_MEANT, OTHER_OF_PAIR = "shown as meant", "shown as the other mirrored orientation of its pair"
OTHER_ALPHA, NO_ALPHA = "shown with another alpha", "shown without alpha"
OWN_DEPTH, COLOUR_DEPTH = "alpha given at its own depth", "alpha given at the colour's depth"
SHOWN, REFUSED = "shown", "refused"
UNCUT = "shown with all that its tiles have"
SAME = "taken as the ordinary file is"

# Entry, then version of libheif, then what it does.
LIBHEIF = {
    "S1": {"1.15.1": {OTHER_OF_PAIR}, "1.19.7": {OTHER_OF_PAIR}, "1.19.8": {OTHER_OF_PAIR}, "1.23.6": {OTHER_OF_PAIR}},
    "S2": {"1.15.1": {REFUSED}, "1.19.7": {REFUSED}, "1.19.8": {REFUSED}, "1.23.6": {SHOWN}},  # the last with the tile black
    "D12": {"1.15.1": {SHOWN}, "1.19.7": {REFUSED}, "1.19.8": {REFUSED}, "1.23.6": {REFUSED}},
    "S10": {"1.19.7": {REFUSED}, "1.19.8": {REFUSED}, "1.23.6": {REFUSED}},
    "S12": {"1.15.1": {AS_MEANT}, "1.19.7": {AS_MEANT}, "1.23.6": {AS_MEANT}},
    "S13": {"1.15.1": {SAME}, "1.19.7": {SAME}, "1.23.6": {SAME}},
    # With the limits that it has; and by the library where it is told to forget these.
    "S14": {"1.15.1": {REFUSED}, "1.19.7": {REFUSED}, "1.23.6": {REFUSED}},
    "S14, without limits": {"1.19.7": {AS_MEANT}, "1.23.6": {AS_MEANT}},
    # By a reader that makes one depth of two, under an identity matrix and under another; and by the library itself.
    "S11, identity": {"1.15.1": {REFUSED}, "1.19.7": {REFUSED}, "1.19.8": {REFUSED}, "1.23.6": {AS_MEANT}},
    "S11, matrix": {"1.15.1": {REFUSED}, "1.19.7": {OTHER_ALPHA}, "1.19.8": {OTHER_ALPHA}, "1.23.6": {AS_MEANT}},
    "S11, library": {"1.15.1": {OWN_DEPTH}, "1.19.7": {OWN_DEPTH}, "1.19.8": {OWN_DEPTH}, "1.23.6": {COLOUR_DEPTH}},
}

# Warnings of exiftool's -validate that are known; all others fail.
EXIFTOOL_WARNINGS = {"Duplicate tag 'auxl' at MOV-Meta-ItemReference"}


def judge(entry, version, behaviour):
    """None if a version of libheif does what is known of it; else whether that fails, and what to say."""
    known = LIBHEIF[entry].get(version)
    if known is None:
        return False, f"{entry}: {behaviour} by libheif {version}, which it was not seen with; seen are {', '.join(LIBHEIF[entry])}"
    if behaviour in known:
        return None
    return True, f"{entry}: {behaviour}, where libheif {version} is known for: {' or '.join(sorted(known))}"
