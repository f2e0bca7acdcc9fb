"""CSV compared with Python's `csv`, in dialects of four delimiters, two quotes and three line
endings.

Python's strict reader treats both carriage returns and line feeds as line endings, and accepts a
quote in the middle of a field. So texts are split into lines here, and texts with such a quote, or
with another line ending outside of quotes, are left out.

Tables that Python writes are read back too. Before Python 3.13 it quotes a carriage return only if
lines end with CRLF. In the other dialects a field with one is then rejected, or loses it before the
line feed that ends the line.
"""
import csv
import io
import itertools

from peers.harness import Comparison, each, often_changed, some

DELIMITERS, QUOTES = ",;\t|", "\"'"
# CRLF, LF, and either.
ENDS = (("\r\n",), ("\n",), ("\r\n", "\n"))


def field(rng, delimiter, quote, end):
    """Returns the text of a field."""
    sizes = (0, 1, 1, 2, 5)
    if rng.random() < 0.5:
        return some(rng, [it for it in "ab \t\0\x7f\xe9" if it != delimiter], sizes)
    parts = ["a", " ", delimiter, quote * 2, "\r", "\n", end, "\xe9"]
    return quote + some(rng, parts, sizes) + quote


def document(rng, delimiter, quote, ends):
    """Returns a document, whose last line may have no line ending."""
    text, count = "", rng.choice((0, 1, 1, 2, 3, 5))
    for line in range(count):
        end = rng.choice(ends)
        size = rng.choice((1, 1, 2, 3))
        text += delimiter.join(field(rng, delimiter, quote, end) for _ in range(size))
        text += end if line + 1 < count or rng.random() < 0.5 else ""
    return text


def texts(rng, count, kinds=2, delimiters=",", quotes='"'):
    """Returns the kind of line endings, the delimiter, the quote, and a text."""
    for _ in range(count):
        which, delimiter, quote = rng.randrange(kinds), rng.choice(delimiters), rng.choice(quotes)
        parts = [*"\r\n \t\0\x7f\xe9ab", delimiter, quote, "\r\n", quote * 2, quote + delimiter]
        parts += [quote + delimiter + quote, quote + "\r\n", delimiter * 2, "\n\n"]
        parts += [f"{quote}a{quote}"]
        text = document(rng, delimiter, quote, ENDS[which])
        yield which, delimiter, quote, often_changed(rng, text, parts)


def in_dialects(rng, count):
    return texts(rng, count, 3, DELIMITERS, QUOTES)


def cut(text, delimiter, quote, ends):
    """Returns the lines of a text; line endings in quotes do not count. Returns None if, outside of
    quotes, there is a quote in the middle of a field, or a line ending only for Python."""
    lines, start, at, within = [], 0, 0, False
    while at < len(text):
        end = next((it for it in ends if text.startswith(it, at)), None)
        if text[at] == quote:
            begins = at == start or text[at - 1] == delimiter
            if not within and not begins:
                return None
            if within and text[at + 1 : at + 2] == quote:
                at += 1
            else:
                within = not within
        elif not within and end:
            lines.append(text[start:at])
            start = at = at + len(end)
            continue
        elif not within and text[at] in "\r\n":
            return None
        at += 1
    return lines + ([text[start:]] if start < len(text) else [])


def records(row):
    """Returns the records that Python reads, or None."""
    which, delimiter, quote, text = row
    lines, found = cut(text, delimiter, quote, ENDS[which]), []
    form = {"delimiter": delimiter, "quotechar": quote, "strict": True}
    try:
        for line in lines if lines is not None else ():
            (read,) = csv.reader([line], **form) if line else ([""],)
            found.append(read)
    except (csv.Error, ValueError):
        return None
    return None if lines is None else found


def told(row):
    """Returns Python's result for a text."""
    found = records(row)
    if found is None:
        return "none"
    return shown(found)


def told_and_written(row):
    """Returns Python's result for a text, and the text that Python writes for it. Python quotes
    fields with a byte of its line ending, and here both bytes are quoted in each dialect."""
    which, delimiter, quote, _ = row
    said, again = told(row), ""
    if said == "none":
        return said
    for record in records(row):
        written = io.StringIO(newline="")
        form = {"delimiter": delimiter, "quotechar": quote, "lineterminator": "\r\n"}
        csv.writer(written, **form).writerow(record)
        again += written.getvalue()[:-2] + ("\n" if which == 1 else "\r\n")
    return f"{said} {list(again.encode('latin-1'))}"


def written(rng, count):
    """Returns tables of each dialect, as in `texts`, with the texts that Python writes for them."""
    for which, delimiter, quote in itertools.product(range(3), DELIMITERS, QUOTES):
        parts = [*"ab \t\0\x7f\xe9\r\n", delimiter, quote, "\r\n"]
        form = {"delimiter": delimiter, "quotechar": quote}
        for _ in range(count):
            sizes = rng.choices((1, 1, 2, 3), k=rng.randrange(5))
            table = [[some(rng, parts, (0, 1, 1, 2, 5)) for _ in range(it)] for it in sizes]
            text = io.StringIO(newline="")
            csv.writer(text, lineterminator=rng.choice(ENDS[which]), **form).writerows(table)
            yield which, delimiter, quote, text.getvalue(), table


def shown(table):
    """Returns a table as the program prints it."""
    records = ("".join(str(list(it.encode("latin-1"))) for it in record) for record in table)
    return "some" + "".join(f" [{fields}]" for fields in records)


def is_back(row, ours, theirs):
    """Returns whether a table is read back, or the reason why not."""
    _, delimiter, quote, _, table = row
    found = ours.rpartition(" [")[0]
    if found == theirs:
        return True
    is_bare = lambda it: "\r" in it and not {delimiter, quote, "\n"} & {*it}
    if ours == "none":
        return any(is_bare(it) for record in table for it in record) and \
            "a carriage return without quotes"
    cut = [[*rest, last.removesuffix("\r") if is_bare(last) else last] for *rest, last in table]
    return found == shown(cut) and "a carriage return without quotes before the line feed"


def given(row):
    which, delimiter, quote, text = row[:4]
    return (chr(which) + delimiter + quote + text).encode("latin-1")


COMPARISONS = [
    Comparison(
        "csv/documents", "Python's csv", "format_csv", "csv",
        texts, given, each(told), seed=4180,
    ),
    Comparison(
        "csv/dialects", "Python's csv, and its writer", "format_csv_records", "csv_dialects",
        in_dialects, given, each(told_and_written), seed=4180, count=3000,
    ),
    Comparison(
        "csv/written", "tables that Python writes", "format_csv_records", "csv_dialects",
        written, given, each(lambda row: shown(row[4])), is_back, seed=4180, count=1000,
    ),
]
