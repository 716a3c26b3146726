"""The differences of two listings, line by line. This is not proved.

A line ends with its line feed, and bytes after the last one are a line too. Lines of the same number are compared, and nothing is trimmed.
"""


def split(data):
    """Lines by the line feed alone."""
    rows = data.split(b"\n")
    return [row + b"\n" for row in rows[:-1]] + [row for row in rows[-1:] if row]


def shown(row):
    """A line for people: a byte that is not printed, or a line feed that is missing, is named."""
    body = row[:-1] if row.endswith(b"\n") else row
    words = "".join(chr(n) if 32 <= n < 127 else f"\\x{n:02X}" for n in body)
    return words + ("" if row.endswith(b"\n") else "  (no line feed)")


def differences(old, new):
    """Line number, from 1, and both lines, where they differ; then the lines by which one runs on: whose they are, and from which number."""
    first, second = split(old), split(new)
    both = min(len(first), len(second))
    found = [(k + 1, first[k], second[k]) for k in range(both) if first[k] != second[k]]
    return found, both + 1, first[both:], second[both:]


def report(old, new):
    """The report of two listings, a line each; none where they are equal."""
    found, behind, first, second = differences(old, new)
    lines = []
    for number, left, right in found:
        lines += [f"line {number}", f"- {shown(left)}", f"+ {shown(right)}"]
    for sign, name, rows in (("-", "OLD", first), ("+", "NEW", second)):
        if rows:
            lines += [f"line {behind} on: {name} alone, {len(rows)} line" + ("s" if len(rows) > 1 else "")] + [f"{sign} {shown(row)}" for row in rows]
    return lines
