"""TOML texts: hard cases, and others by the grammar of TOML 1.0, with and without parts that
`format_toml` supports, most of them changed in a few positions."""
from peers.harness import often_changed

# Cases for which TOML parsers are known to differ: ends, keys, strings, numbers, arrays, tables.
HARD = [
    "", " ", "\t", "\n", "\r\n", "\r", "\n\r", "\ufeffa=1", "\x00", "\x0c", "\x0b", "\xa0", "#",
    "# a", "#\x00", "#\x1f", "#\x7f", "#\x80", "#\t", "#\r", "#\r\n", "#a\rb", "# \U0010ffff",
    "a=1#b", "a=1 # b", "a", "a=", "=1", "a=1", "a =1", "a= 1", "a\t=\t1", "a\n=1", "a=\n1",
    "a=1 b=2", "a=1,b=2", "a=1;", "a==1", "a:1", "a 1", "a b=1", "a.b=1", "a . b = 1", ".a=1",
    "a.=1", "a..b=1", "\"a\"=1", "'a'=1", "\"\"=1", "''=1", "\"a\"b=1", "1=1", "-=1", "_=1", "--=1",
    "1.2=3", "é=1", "a!=1", "A-_9=1", "a=1\na=2", "a=1\n[a]", "[a]\na=1", "[a]\n[a]",
    "[a]\nb=1\n[c]\nb=1", "[a]\nb=1\nb=1", "a=1\n[b]\na=2", "[a]\n[b]\n[a]", "a=[]\n[a]",
    "a=1\n[b]\n[a]", "a=\"\"", "a=''", "a=\"", "a='", "a=\"b", "a=\"b'", "a='b\"", "a=\"b\"c",
    "a='b'c", "a=\"b\"\"c\"", "a='b''c'", "a=\"'\"", "a='\"'", "a=\"\t\"", "a=\"\x01\"",
    "a=\"\x7f\"", "a='\x7f'", "a='\x00'", "a='\x80'", "a=\"\n\"", "a='\n'", "a=\"\r\"", "a='\r\n'",
    "a='\\'", "a='\\n'", "a=\"\\n\"", "a=\"\\\"\"", "a=\"\\\\\"", "a=\"\\b\\t\\n\\f\\r\\\"\\\\\"",
    "a=\"\\/\"", "a=\"\\a\"", "a=\"\\e\"", "a=\"\\x41\"", "a=\"\\ \"", "a=\"\\", "a=\"\\u0041\"",
    "a=\"\\u00e9\"", "a=\"\\uD834\"", "a=\"\\u004\"", "a=\"\\U0001d11e\"", "a=\"\\U00110000\"",
    "a=\"\\U0000d800\"", "a=\"\\U0001d11\"", "a=\"\\u004g\"", "a=\"\"\"b\"\"\"", "a='''b'''",
    "a=\"\"\"\nb\"\"\"", "a=\"\"\"\"", "a=\"\"\"\"\"", "a=\"\"\"\"\"\"", "a=\"\"\"\"\"\"\"",
    "a=\"\"\"\"\"\"\"\"", "a=\"\"\"\"\"\"\"\"\"", "a=''''", "a='''''", "a=''''''", "a='''''''",
    "a=''''''''", "a='''''''''", "a=\"\"\"b\"\"\"\"c\"\"\"", "a=\"\"\"\r\nb\r\n\"\"\"",
    "a=\"\"\"\\\n\r\"\"\"", "a=\"\"\"\\ \t\r\n \n b\\\n\"\"\"", "a=\"\"\"\\ b\"\"\"",
    "a=\"\"\"\\\"\"\"\"", "a=\"\"\"\\\n\"\"\"\"\"", "a=\"\"\"\"\\\n\"\"\\\n\"\"\"\"",
    "\"\"\"a\"\"\"=1", "a=0", "a=-0", "a=+0", "a=00", "a=01", "a=-01", "a=+1", "a=-1", "a=--1",
    "a=+-1", "a=- 1", "a=-", "a=+", "a=1_0", "a=1__0", "a=_1", "a=1_", "a=0_1", "a=0x1", "a=0o7",
    "a=0b1", "a=1.0", "a=1.", "a=.1", "a=1e1", "a=1E+1", "a=inf", "a=nan", "a=-inf",
    "a=9223372036854775807", "a=9223372036854775808", "a=-9223372036854775808",
    "a=-9223372036854775809", "a=\uff11", "a=1979-05-27", "a=07:32:00", "a=0x7fffffffffffffff",
    "a=0x8000000000000000", "a=0o777777777777777777777", "a=0b1_0", "a=0x_1", "a=0x", "a=+0x1",
    "a=-0o7", "a=0X1", "a=0b2", "a=0o8", "a=+0", "a=+1_0", "a=00", "a=0_0", "a=0b0_0", "a=0xaF_0",
    "a=1979-05-27T07:32:00Z", "a=true", "a=false", "a=True", "a=FALSE", "a=tru", "a=truee",
    "a=true false", "a=t", "a=null", "a=on", "a=[]", "a=[ ]", "a=[\t]", "a=[1]", "a=[ 1 ]",
    "a=[1,2]", "a=[1 , 2]", "a=[1,]", "a=[1 , ]", "a=[,]", "a=[,1]", "a=[1,,2]", "a=[1 2]", "a=[1",
    "a=]", "a=[1]]", "a=[[]", "a=[[]]", "a=[[],[]]", "a=[[1],['b']]", "a=[1,'b',true,[]]", "a=[\n]",
    "a=[\n1\n]", "a=[1,\n2]", "a=[1\n,2]", "a=[ # b\n1]", "a=[1 # b\n]", "a=[1 # b]",
    "a=[1,#b\r\n2]", "a=[1\r]", "a=[\r\n]", "a=[" * 9 + "]" * 9, "a=" + "[" * 9 + "]" * 9,
    "a=" + "[" * 10 + "]" * 10, "a={}", "a={b=1}", "a=[{}]", "[]", "[ ]", "[", "]", "[a", "a]",
    "[a]", "[ a ]", "[\ta\t]", " [a]", "[a] ", "[a]#b", "[a]b=1", "[a] b=1", "[a]]", "[[a]]",
    "[[a]", "[a b]", "[a\n]", "[\na]", "[a.b]", "[\"a\"]", "['a']", "[1]", "[-]", "[a,b]",
    "[a]\n\n[b]\n", "a=1\n\n\nb=2\n\n", "a=1\r\nb=2\r\n", "a=1\rb=2", "a=1\n\rb=2", "a=1\r\r\n",
]
# The same for dates and times.
MOMENTS = [
    "1979-05-27", "1979-05-27T07:32:00", "1979-05-27t07:32:00z", "1979-05-27 07:32:00Z", "07:32:00",
    "1979-05-27  07:32:00", "1979-05-27\t07:32:00", "1979-05-27 ", "1979-05-27 # 07:32:00",
    "1979-05-27 07:32", "1979-05-27 7:32:00", "1979-05-27T", "1979-05-27T07", "1979-05-27T07:32",
    "1979-05-27T07:32:00.", "1979-05-27T07:32:00.5", "1979-05-27T07:32:00.123456789Z", "07:32:00.",
    "07:32:00Z", "07:32:00+01:00", "07:32", "7:32:00", "24:00:00", "07:60:00", "07:32:60",
    "07:32:61", "1979-05-27T07:32:00+07:00", "1979-05-27T07:32:00-07:00",
    "1979-05-27T07:32:00-00:00", "1979-05-27T07:32:00+24:00", "1979-05-27T07:32:00+07:60",
    "1979-05-27T07:32:00+0700", "1979-05-27T07:32:00+07", "1979-05-27T07:32:00 Z", "1979-05-27Z",
    "1979-05-27_07:32:00", "1979-02-29", "2000-02-29", "1900-02-29", "2024-02-30", "1979-04-31",
    "1979-00-27", "1979-13-27", "1979-05-00", "1979-05-32", "0000-01-01", "0001-01-01",
    "9999-12-31", "10000-01-01", "979-05-27", "1979-5-27", "1979-05-2",
    "1979-05-27 07:32:00 08:00:00", "1979-05-27 1979-05-27", "1 07:32:00", "1979-05-27x",
    "+1979-05-27", "1979-05-27T07:32:00x", "1979-05-27.5", "\uff11979-05-27",
]
# The parts that changes insert.
PARTS = [*"\"'#=[], \t\r\n0a-_.\\\x00\x7fé", "\r\n"]


def of(rng, options):
    return rng.choice(options)


def key(rng):
    """Returns one name, or two separated by a point, bare or quoted."""
    point = of(rng, [".", ".", " . ", ". "])
    return point.join(name(rng) for _ in range(rng.choice((1, 1, 1, 1, 2))))


def name(rng):
    kind = rng.random()
    if kind < 0.1:
        return "'" + of(rng, ["", "a", "a b", '"', "é"]) + "'"
    if kind < 0.2:
        return '"' + of(rng, ["", "a", "a.b", "'", "\\n", "\\\"", "€"]) + '"'
    return "".join(of(rng, "aabbcZ09-_") for _ in range(rng.choice((1, 1, 2, 3))))


def string(rng):
    if rng.random() < 0.5:
        inside = "".join(of(rng, "ab \t'#=[],\\é€\U0001d11e\"\x7f")
                         for _ in range(rng.choice((0, 1, 2, 4))))
        return "'" + inside.replace("'", "") + "'"
    inside = "".join(of(rng, ["a", " ", "\t", "'", "#", "=", "[", "é", "€", "\U0001d11e"])
                     for _ in range(rng.choice((0, 1, 2, 4))))
    if rng.random() < 0.2:
        inside += of(rng, ["\\n", "\\\"", "\\\\", "\\t", "\\u00e9", "\\x", "\\U0001d11e"])
    return f'"{inside}"'


def long_string(rng):
    """Returns a multi-line string, possibly invalid, with marks and escaped line endings."""
    mark = of(rng, '"\'')
    parts = ["a", "b c", " ", "\t", "\n", "\n", "\r\n", mark, mark, mark * 2, '"', "'", "#", "["]
    parts += ["é", "\U0001d11e"]
    if mark == '"':
        parts += ["\\\n", "\\ \n \t", "\\\r\n\n  ", "\\\\", '\\"', "\\n", "\\u00e9"]
    else:
        parts += ["\\", "\\\n"]
    if rng.random() < 0.1:
        parts += ["\\ a", "\r", "\x7f", mark * 3]
    inside = "".join(of(rng, parts) for _ in range(rng.choice((0, 1, 2, 3, 5, 8))))
    return mark * 3 + inside + mark * of(rng, (3, 3, 3, 3, 4, 5, 6))


def number(rng):
    """Returns an integer with underscores or in another base, possibly invalid."""
    sign = of(rng, ["", "", "", "-", "+"])
    front = of(rng, ["", "", "", "0x", "0o", "0b", "0X"])
    digits = "".join(of(rng, "0011_7f9aF") for _ in range(rng.choice((1, 2, 3, 5, 8))))
    return sign + front + digits


def real(rng):
    """Returns a float, possibly invalid."""
    sign = of(rng, ["", "", "-", "+", "+-"] if rng.random() < 0.2 else ["", "-", "+"])
    if rng.random() < 0.1:
        return sign + of(rng, ["inf", "nan", "Inf", "in", "nann"])
    digits = lambda: "".join(of(rng, "0012_79") for _ in range(rng.choice((1, 1, 2, 3, 5))))
    point = of(rng, ["", ".", ".", ".."] if rng.random() < 0.1 else ["", ".", "."])
    exponent = of(rng, ["", "", "e", "E"])
    whole = digits() if rng.random() < 0.5 else of(rng, ["0", "1", "7", "120", "1_0"])
    text = sign + whole + (point + digits() if point else "")
    return text + (exponent + of(rng, ["", "-", "+"]) + digits() if exponent else "")


def moment(rng):
    """Returns a date, a time or both, possibly invalid."""
    if rng.random() < 0.1:
        return of(rng, MOMENTS)
    year = of(rng, [1, 1900, 1979, 2000, 2024, 9999])
    day = f"{year:04}-{rng.randint(1, 12):02}-{rng.randint(1, 30):02}"
    clock = f"{rng.randint(0, 23):02}:{rng.randint(0, 59):02}:{rng.randint(0, 60):02}"
    clock += of(rng, ["", "", ".5", ".25", ".123456789", ".000"])
    offset = of(rng, ["", "Z", "z", "+01:30", "-07:00", "-23:59"])
    return of(rng, [day, clock, day + of(rng, "Tt ") + clock + offset])


def value(rng, depth):
    if rng.random() < 0.12:
        return long_string(rng)
    if rng.random() < 0.08:
        return moment(rng)
    kind = rng.random()
    if depth and kind < 0.15:
        gap = of(rng, ["", " ", "\t"]) if rng.random() < 0.97 else "\n"
        pair = lambda: f"{key(rng)}{gap}={gap}{value(rng, depth - 1)}{gap}"
        pairs = [pair() for _ in range(rng.choice((0, 1, 1, 2)))]
        comma = "," if pairs and rng.random() < 0.05 else ""
        return "{" + gap + ("," + gap).join(pairs) + comma + "}"
    if depth and kind < 0.45:
        gap = of(rng, ["", " ", "\t"]) if rng.random() < 0.7 else of(rng, ["\n", " # a\n", "\r\n"])
        items = [value(rng, depth - 1) + gap for _ in range(rng.choice((0, 1, 2, 3)))]
        comma = "," + gap if items and rng.random() < 0.3 else ""
        return "[" + gap + ("," + gap).join(items) + comma + "]"
    if kind < 0.65:
        return string(rng)
    if kind < 0.75:
        return of(rng, ["true", "false"])
    if kind < 0.87:
        return of(rng, ["", "-", "+"]) + str(rng.choice((0, 1, 7, 42, 1979, 2**63 - 1, 2**63)))
    if kind < 0.91:
        return number(rng)
    if kind < 0.97:
        return real(rng)
    return of(rng, ["1.5", "0x1f", "1_000", "{}", "1979-05-27", "{a=1}", "inf", "'''a'''"])


def line(rng, depth):
    gap = of(rng, ["", "", " ", "\t "])
    comment = of(rng, ["", "", "", "# a", "#é\t=[", " #"])
    kind = rng.random()
    if kind < 0.2:
        said = ""
    elif kind < 0.35:
        said = f"[{gap}{key(rng)}{gap}]"
    elif kind < 0.4:
        said = f"[[{gap}{key(rng)}{gap}]]"
    elif kind < 0.95:
        said = f"{key(rng)}{gap}={gap}{value(rng, depth)}"
    else:
        said = of(rng, ["[[a] ]", "a. = 1", "[a.b.]", '"a = 1', "'a' = 1", "[ 'a' ]"])
    return gap + said + gap + comment


def texts(rng, count):
    """Returns depths and texts."""
    for text in HARD:
        yield 9, text
    for text in MOMENTS:
        yield 9, f"a = {text}"
        yield 9, f"a = [{text}, {text} ]\nb = {{c = {text} }}\n"
    for _ in range(count):
        lines = [line(rng, rng.choice((0, 1, 2))) for _ in range(rng.choice((1, 1, 2, 3, 5)))]
        text = of(rng, ["\n", "\n", "\r\n"]).join(lines)
        yield rng.choice((0, 1, 2, 9)), often_changed(rng, text, PARTS, (0, 0, 0, 1, 1, 2))
