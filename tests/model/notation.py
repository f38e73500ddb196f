"""Models how cases are written: numbers, rows, row sets, dimensions and matrices, read and printed."""


def repeated(word, read):
    """What a word stands for; with * and a count after it, so often."""
    value, _, count = word.partition("*")
    return read(value.strip()) * int(count or 1)


def span(word):
    """A number, or the numbers from one up to another that have .. between them."""
    first, dots, end = word.partition("..")
    return list(range(int(first), int(end))) if dots else [int(first)]


def size(word):
    width, height = word.split("x")
    return [(int(width), int(height))]


def numbers(text):
    return [] if text == "-" else [value for word in text.split() for value in repeated(word, span)]


def dimensions(text):
    return [] if text == "none" else [value for word in text.split() for value in repeated(word, size)]


def nodes(text):
    """Nodes, each its layer and its number there."""
    return [] if text == "-" else [tuple(map(int, word.split(":"))) for word in text.split()]


def counted(text, mark, read):
    """What a part of a text stands for; with a mark and a count after it, so often."""
    part, _, count = text.partition(mark)
    return [read(part.strip()) for _ in range(int(count or 1))]


def rows(text):
    return [] if text == "none" else [row for one in text.split(";") for row in counted(one, " times ", numbers)]


def row_sets(text):
    return [] if text == "-" else [found for one in text.split("/") for found in counted(one, " sets ", rows)]


def matrices(text):
    return [[numbers(row.strip()) for row in matrix.split(",")] for matrix in text.split(";")]


def print_numbers(values):
    """Numbers, or digests, which are numbers or bytes."""
    return " ".join(value.hex() if isinstance(value, bytes) else str(value) for value in values) or "-"


def print_rows(values):
    return "; ".join(map(print_numbers, values)) or "none"


def print_row_sets(values):
    return " / ".join(map(print_rows, values)) or "-"


def print_dimensions(values):
    return " ".join(f"{width}x{height}" for width, height in values) or "none"


def print_nodes(values):
    return " ".join(f"{layer}:{number}" for layer, number in values) or "-"


def print_matrices(values):
    return "; ".join(", ".join(map(print_numbers, matrix)) for matrix in values)
