"""Tables as plain text: columns with two spaces between them, numbers to the right."""


def is_number(cell):
    return cell.lstrip("-").isdigit()


def table(heads, rows):
    """The lines of a table. A column of which each cell is a number, or `-` for none, is set to the right; columns of which no row has anything are left
    out."""
    cells = [[str(cell) for cell in row] for row in rows]
    kept = [column for column in range(len(heads)) if any(row[column] for row in cells)]
    widths = {column: max(len(row[column]) for row in [heads, *cells]) for column in kept}
    right = {column for column in kept if all(is_number(row[column]) or row[column] in ("-", "") for row in cells)}
    for row in [heads, *cells]:
        padded = (row[column].rjust(widths[column]) if column in right else row[column].ljust(widths[column]) for column in kept)
        yield "  ".join(padded).rstrip()
