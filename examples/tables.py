"""Tables of decimals, for the scripts that compute what the models print. A decimal is kept as a whole number of units: with
two decimals, 1.50 is 150."""
import csv


def units(cell, decimals):
    """How many units a cell writes."""
    cell = cell.strip(" ")
    whole, _, rest = cell.lstrip("-").partition(".")
    size = int(whole + rest[:decimals].ljust(decimals, "0"))
    return -size if cell.startswith("-") else size


def cell(size, decimals):
    """The cell that writes so many units."""
    digits = str(abs(size)).rjust(decimals + 1, "0")
    sign = "-" if size < 0 else ""
    if decimals == 0:
        return sign + digits
    return f"{sign}{digits[:-decimals]}.{digits[-decimals:]}"


def read(file, **decimals):
    """The rows of a table, each a dictionary from headings to units. Headings without decimals here are whole numbers; of
    `v.0` and `v.1` the decimals are told as those of `v`."""
    with open(file, newline="", encoding="utf-8-sig") as text:
        rows = list(csv.DictReader(text))
    return [{name: units(row[name], decimals.get(name.split(".")[0], 0)) for name in row} for row in rows]


def show(name, rows, **decimals):
    """Prints the table of a set."""
    headings = list(rows[0])
    print("set", name)
    print(",".join(headings))
    for row in rows:
        print(",".join(cell(row[heading], decimals.get(heading.split(".")[0], 0)) for heading in headings))
