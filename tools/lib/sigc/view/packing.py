"""The columns of a run packed for a page: bits and differences of few bytes, compressed, as text.

page/values.js unpacks them. Of signals that are equal, or of which one is the other an instant later, one is packed.
"""
import base64
import sys
import zlib
from array import array
from operator import sub

from sigc.view.run_columns import mapping

AS_DIGITS = bytes.maketrans(b"\0\1", b"01")
WIDTHS = {1: "b", 2: "h", 4: "i", 8: "q"}
WAYS, SHORT, SAMPLE, LEVEL = ("step", "first"), 4, 4096, 4
# Integers beyond these are no numbers of a page's script without loss.
MOST_EXACT = 1 << 52
# What ends compressed parts that stand one behind the other.
END = zlib.compressobj(LEVEL, zlib.DEFLATED, -15).flush()


class Packed:
    """Columns packed one after another: `places` tells of each where it stands, and `text` has all of them."""

    def __init__(self, columns):
        self.parts, self.size, self.known = [], 0, {}
        told = [like_another(columns, number) for number in range(len(columns))]
        rest = [number for number, it in enumerate(columns) if it.kind == "integer" and not {"like", "after"} & told[number].keys()]
        with mapping(sum(len(columns[it].values) for it in rest)) as mapped:
            packed = dict(zip(rest, mapped(shortest, [columns[it].values for it in rest])))
        self.places = [told[number] | self.place(it, packed.get(number)) for number, it in enumerate(columns)]

    def text(self):
        return base64.b64encode(b"".join(self.parts) + END).decode("ascii")

    def place(self, column, packed):
        """Where the bits of presence of a column stand, if it is not always present, and its values."""
        found = {"count": len(column.values)}
        if 0 in column.there:
            found["there"] = self.bits(column.there.translate(AS_DIGITS))
        if column.kind == "boolean":
            found["at"] = self.bits(column.values)
        if packed:
            width, way, part = packed
            found |= {"width": width, "way": way, "at": self.part(width * len(column.values), part)}
        return found

    def bits(self, digits):
        """Where digits 1 and 0 stand, eight in a byte."""
        length = (len(digits) + 7) // 8
        return self.part(length, deflated(int(digits.ljust(8 * length, b"0") or b"0", 2).to_bytes(length, "big")))

    def part(self, length, part):
        """Where bytes of a length stand that were compressed; they are added where they are new."""
        if (length, part) not in self.known:
            self.known[length, part] = self.size
            self.parts.append(part)
            self.size += length
        return self.known[length, part]


def like_another(columns, number):
    """Of a column of integers its first value, and a column before it that is equal, or that it follows an instant later."""
    values = columns[number].values
    if columns[number].kind != "integer":
        return {}
    found = {"first": str(values[0]) if values else "0"}
    if values and laid(values, SHORT) is None and max(max(values), -min(values)) > MOST_EXACT:
        found["wide"] = 1
    for at, it in enumerate(columns[:number]):
        if it.kind == "integer" and len(it.values) == len(values) > 1:
            if it.values is values or it.values[0] == values[0] and it.values == values:
                return found | {"like": at}
            if it.values[:2] == values[1:3] and it.values[:-1] == values[1:]:
                return found | {"after": at}
    return found


def shortest(values):
    """The differences of each value to the one before it, or to the first one, whichever are shorter for some of them:
    in how many bytes each, which way, and all of them compressed."""
    way = min(WAYS, key=lambda it: packed_size(differences(values[:SAMPLE], it)))
    width, way, data = planes(differences(values, way), way) or planes(values, "plain")
    return width, way, deflated(data)


def packed_size(values):
    """In about how many bytes some integers are packed."""
    found = planes(values, "")
    return len(zlib.compress(found[2], 1)) if found else sys.maxsize


def deflated(data):
    """Bytes compressed as a part behind which others may stand."""
    packer = zlib.compressobj(LEVEL, zlib.DEFLATED, -15, strategy=zlib.Z_FILTERED)
    return packer.compress(data) + packer.flush(zlib.Z_FULL_FLUSH)


def differences(values, way):
    """Each value less the one before it, or less the first one."""
    others = values[:1] + values[:-1] if way == "step" else values[:1] * len(values)
    return list(map(sub, values, others))


def laid(values, width):
    """Integers in as many bytes each; None where one of them does not fit."""
    try:
        return array(WIDTHS[width], values)
    except OverflowError:
        return None


def planes(values, way):
    """In how few bytes each integer fits, the way that was given, and the integers, the lowest bytes of all of them
    first. Nothing where eight are too few."""
    found = next((it for it in (laid(values, width) for width in WIDTHS) if it is not None), None)
    if found is None:
        return None
    if sys.byteorder == "big":
        found.byteswap()
    data, width = found.tobytes(), found.itemsize
    return width, way, b"".join(data[it::width] for it in range(width))
