"""JSON texts: hard cases, and others by the grammar of RFC 8259, most of them changed in a few
positions."""
from peers.harness import often_changed, some

# Cases for which JSON parsers are known to differ: whitespace, ends, signs, escapes, names.
HARD = [
    "", " ", "\ufeff1", "\ufeff[]", "[1]\x00", "\x00", "\x0c1", "\xa01", "\u2028[1]", "[\u30001]",
    "[1,]", "[,1]", "[1,,2]", "[,]", "[", "]", "[]]", "[[]", "[1", "[1,", "[\"a", "[\"a\"", "[}",
    "{", "}", "{}}", "{,}", "{\"a\"}", "{\"a\":}", "{\"a\":1,}", "{\"a\":1,,\"b\":2}", "{\"a\",1}",
    "{\"a\" 1}", "{1:1}", "{a:1}", "{'a':1}", "{\"a\":1 \"b\":2}", "{\"a\":1]", "{\"a\"::1}",
    "{:1}", "{\"a\":1,\"a\":2}", "{\"a\":{\"a\":{\"a\":[]}}}", "{\"\":0}", "{\"\\u0000\":0}",
    "{null:1}", "0", "-0", "-", "+1", "01", "-01", "00", "0.", ".0", "0.0", "1e", "1e+", "1E-0",
    "1e1.5", "0e0", "1.e1", "0x1", "1_0", "\uff11", "[1 2]", "123456789012345678901234567890",
    "-1e400", "1e-400", "[-]", "[- 1]", "[1e1]", "[0e]", "--1", "1-1", "NaN", "-NaN", "Infinity",
    "-Infinity", "[NaN]", "null", "nul", "nulll", "Null", "NULL", "true", "tru", "True", "false",
    "fals", "[nulltrue]", "\"\"", "\"", "'a'", "\"a", "\"a\"b", "\"\x00\"", "\"\t\"", "\"\n\"",
    "\"\x1f\"", "\"\x7f\"", "\"\x80\"", "\"\u2028\u2029\"", "\"\uffff\"", "\"\U0010ffff\"",
    "\"\\\"", "\"\\\\\"", "\"\\/\"", "\"\\a\"", "\"\\v\"", "\"\\0\"", "\"\\x41\"", "\"\\'\"",
    "\"\\\n\"", "\"\\u\"", "\"\\u00\"", "\"\\u004\"", "\"\\u0041\"", "\"\\U0041\"", "\"\\u00e9\"",
    "\"\\u00E9\"", "\"\\u+041\"", "\"\\u00 1\"", "\"\\uD834\\uDD1E\"", "\"\\ud834\\udd1e\"",
    "\"\\ud834\"", "\"\\udd1e\"", "\"\\ud834a\"", "\"\\ud834\\u0041\"", "\"\\ud834\\ud834\\udd1e\"",
    "\"\\udd1e\\ud834\"", "\"\\ud834\\n\"", "\"\\ud834\\udd1\"", "\"\\uFFFE\\uffff\"",
    "[\"\\ud800\"]", "{\"\\udfff\":0}", "// x\n1", "/* x */1", "1 // x", "#1", "1;", "1,2",
    "[1]\n[2]", "[1:2]", "(1)", "\"a\" \"b\"", " \t\r\n[ \t\r\n] \t\r\n", "[\x0b]", "[\x0c1]",
    "[\x851]", "[" * 9 + "]" * 9, "[" * 9 + "]" * 8, "[" * 10 + "]" * 10,
    "{\"a\":" * 9 + "0" + "}" * 9, "[{}]", "[[],[[]],{\"a\":[[]]}]",
]
# The parts that changes insert.
PARTS = list("[]{},:\"\\/.-+eE0123456789 \t\n\rabfntu'\0\x0b\x0c\x1f\x7f\x85\xa0\xe9\xfe") + [
    "null", "true", "false", "NaN", "Infinity", "\\u00e9", "\\ud800", "\\u12", "[]", "{}", "\"\"",
    "[[]]", "{\"a\":[]}", "1e5", "-0", "01", "1.", ".5", ",,", "\"a\":", "// x\n",
]


def gap(rng):
    """Returns whitespace, mostly empty."""
    return some(rng, " \t\n\r", (0, 0, 0, 1, 1, 3))


def digits(rng, least):
    return "".join(rng.choices("0123456789", k=rng.randint(least, 3)))


def number(rng):
    whole = rng.choice(("0", rng.choice("123456789") + digits(rng, 0)))
    fraction = rng.choice(("", "." + digits(rng, 1)))
    exponent = rng.choice(("", rng.choice("eE") + rng.choice(("", "+", "-")) + digits(rng, 1)))
    return rng.choice(("", "-")) + whole + fraction + exponent


def string(rng):
    pieces = ("a", "b]", " ", ",", "}", "\x7f", "\xe9", "\\\"", "\\\\", "\\/", "\\b", "\\f", "\\n")
    pieces += ("\\r", "\\t", "\\u005C", "\\ud834\\udd1e", "\\uDBFF\\uDfFf", "\\uD7ff", "\\uE000")
    pieces += ("\\u0000",)
    # Mostly unpaired surrogates.
    if rng.random() < 0.1:
        pieces += ("\\ud800", "\\uDBff", "\\uDC00", "\\udead", "\\uDFFF", "u", "\\u")
    return '"' + "".join(rng.choices(pieces, k=rng.choice((0, 1, 1, 2, 4)))) + '"'


def value(rng, levels):
    """Returns a value of at most this nesting depth."""
    kind = rng.randrange(8 if levels else 4)
    if kind == 0:
        return rng.choice(("null", "true", "false"))
    if kind == 1:
        return string(rng)
    if kind < 4:
        return number(rng)
    items = []
    for _ in range(rng.choice((0, 1, 1, 2, 3))):
        name = gap(rng) + string(rng) + gap(rng) + ":" if kind > 5 else ""
        items.append(name + gap(rng) + value(rng, levels - 1) + gap(rng))
    opening, closing = "{}" if kind > 5 else "[]"
    return opening + (",".join(items) or gap(rng)) + closing


def texts(rng, count):
    """Returns depths and texts of characters up to 255."""
    for _ in range(count):
        text = gap(rng) * rng.randint(0, 1) + value(rng, rng.choice((0, 1, 2, 3, 5))) + gap(rng)
        yield rng.choice((0, 1, 2, 3, 9)), often_changed(rng, text, PARTS)


def wide_texts(rng, count):
    """Returns depths and texts, the hard cases first, with characters of one to four bytes."""
    for text in HARD:
        yield 9, text
    for level, text in texts(rng, count):
        wider = (rng.choice("\xe9\u20ac\U0001d11e") if c == "\xe9" else c for c in text)
        yield level, "".join(wider)
