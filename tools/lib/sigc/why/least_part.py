"""A least part of a whole of which something is true, found in few questions."""


def least(count, holds):
    """A least part of 0 .. count-1 of which `holds` is true, as it is of the whole: none of it can be left out."""
    if holds([]):
        return []
    kept = sorted(needed(holds, [], False, list(range(count)))) if count else []
    return one_by_one(kept if holds(kept) else halved(count, holds), holds)


def needed(holds, base, is_new, rest):
    """What of the rest is needed beside a base, where `holds` is true of more as well."""
    if is_new and holds(sorted(base)):
        return []
    if len(rest) < 2:
        return rest
    one, other = rest[: len(rest) // 2], rest[len(rest) // 2 :]
    behind = needed(holds, base + one, True, other)
    return needed(holds, base + behind, bool(behind), one) + behind


def halved(count, holds):
    """A smaller part, found by leaving out halves, quarters and so on."""
    kept, size = list(range(count)), max(1, count // 2)
    while size > 1:
        at = 0
        while at < len(kept):
            tried = kept[:at] + kept[at + size :]
            if holds(tried):
                kept = tried
            else:
                at += size
        size //= 2
    return kept


def one_by_one(kept, holds):
    """A part of which nothing can be left out."""
    at, whole = 0, len(kept)
    while at < len(kept):
        tried = kept[:at] + kept[at + 1 :]
        kept, at = (tried, at) if holds(tried) else (kept, at + 1)
    return kept if len(kept) == whole else one_by_one(kept, holds)
