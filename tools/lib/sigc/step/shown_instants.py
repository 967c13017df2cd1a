"""An instant as text: the signals that are present in columns, and the names of the others."""
import textwrap
from collections import Counter


def shown(values, arrays, width):
    """The lines of an instant: a map from the names that are shown to their values, None where one is absent. arrays
    gives for each array how many elements it has."""
    values = grouped(values, arrays)
    present = [f"{name} {value}" for name, value in values.items() if value is not None]
    absent = [name for name, value in values.items() if value is None]
    lines = in_columns(present, width - 2)
    lines += textwrap.wrap(f"absent: {' '.join(absent)}", width - 2, subsequent_indent="        ", break_long_words=False, break_on_hyphens=False) if absent else []
    return [f"  {it}" for it in lines]


def grouped(values, arrays):
    """The same with the elements of an array as one value, where all of them are shown, and all are there or none is."""
    elements, found = {}, {}
    for name in values:
        elements.setdefault(array_of(name), []).append(name)
    for array, names in elements.items():
        here = [values[it] for it in names]
        is_array = arrays.get(array) == len(names)
        if is_array and None not in here:
            found[array] = f"[{','.join(here)}]"
        elif is_array and set(here) == {None}:
            found[array] = None
        else:
            found.update({it: values[it] for it in names})
    return found


def array_of(name):
    """The array that an element belongs to; of another signal its name, which no array has."""
    return name.rpartition("[")[0] if name.endswith("]") else f" {name}"


def arrays_of(names):
    """How many elements each array has."""
    return Counter(map(array_of, (it for it in names if it.endswith("]"))))


def in_columns(cells, width):
    """Cells from left to right in as many columns as fit."""
    if not cells:
        return []
    for columns in range(len(cells), 0, -1):
        rows = [cells[at : at + columns] for at in range(0, len(cells), columns)]
        widths = [max(len(row[at]) for row in rows if at < len(row)) for at in range(columns)]
        if sum(widths) + 3 * (columns - 1) <= width or columns == 1:
            return ["   ".join(it.ljust(wide) for it, wide in zip(row, widths)).rstrip() for row in rows]
    return []


def table(rows):
    """Rows of words in columns."""
    widths = [max(map(len, column)) for column in zip(*rows)]
    return [" ".join(it.ljust(width) for it, width in zip(row, widths)).rstrip() for row in rows]
