"""Runs of neighbours that are alike, drawn together: ten thousand tiles are one line."""

LEAST = 4  # neighbours that are drawn together; fewer are shown one by one
MOST = 12  # entries of a list that are written out


def runs(things, step):
    """Cuts a list into runs. `step(a, b)` tells how b follows a, or is None where it does not; along a run it is the same.
    What would be a run of fewer than LEAST comes as single things, each a run of its own."""
    if len(things) < LEAST:
        yield from _long_or_single(things)
        return
    run, along = [], None
    for thing in things:
        taken = step(run[-1], thing) if run else None
        if taken is None or (len(run) > 1 and taken != along):
            yield from _long_or_single(run)
            run = [thing]
        else:
            run.append(thing)
            along = taken
    yield from _long_or_single(run)


def _long_or_single(run):
    return [run] if len(run) >= LEAST else [[thing] for thing in run]


def numbers(given):
    """Numbers with runs drawn together, as '1 to 6, 9'; of a long list the first and how many more there are."""
    if len(given) == 1:
        return str(given[0])
    found = []
    for number in given:
        if found and number == found[-1][1] + 1:
            found[-1][1] = number
        else:
            found.append([number, number])
    written = [f"{a}" if a == b else f"{a}, {b}" if b == a + 1 else f"{a} to {b}" for a, b in found[:MOST]]
    return _and_more(written, sum(b - a + 1 for a, b in found[MOST:]))


def named(noun, given):
    """The noun and its numbers, as 'item 9' or 'items 1 to 6'."""
    return f"{noun if len(given) == 1 else plural_of(noun)} {numbers(given)}"


def words(given):
    """Words one behind the other; of many the first and how many more there are."""
    return _and_more(list(given[:MOST]), len(given) - MOST)


def _and_more(written, left):
    return ", ".join(written) + (f" and {left:,} more" if left > 0 else "")


def plural_of(noun):
    return f"{noun[:-1]}ies" if noun.endswith("y") else f"{noun}s"


def plural(count, noun):
    """A count and what is counted, as '1 byte' or '7,924 bytes'."""
    return f"{count:,} {noun if count == 1 else plural_of(noun)}"


def spread(lengths):
    """How long things are, as '12 bytes' or '12 to 340 bytes'."""
    least, most = min(lengths), max(lengths)
    return plural(most, "byte") if least == most else f"{least:,} to {plural(most, 'byte')}"
