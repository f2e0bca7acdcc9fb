"""The offset of the first error in a TOML 1.0 text, by recursive descent.

The grammar is that of toml.abnf 1.0, with integers of 64 bits and days that the month has. Keys are
not compared.
"""
HEX, DIGITS = "0123456789abcdefABCDEF", "0123456789"
BARE = "a0123456789-_" + "".join(map(chr, [*range(65, 91), *range(98, 123)]))
BLANKS = " \t"
ESCAPES = 'btnfr"\\uU'
DAYS = (31, 29, 31, 30, 31, 30, 31, 31, 30, 31, 30, 31)


class Stop(Exception):
    """The first offset where a text cannot be continued to a document."""


def is_inside(c):
    """Returns whether a character may occur in a comment, or in a string without its marks."""
    return c == "\t" or c >= " " and c != "\x7f"


class Reader:
    """A recursive-descent parser of TOML, with one character of lookahead."""

    def __init__(self, text):
        self.text, self.at = text, 0

    def here(self):
        return self.text[self.at : self.at + 1]

    def is_at(self, among):
        return self.here() != "" and self.here() in among

    def take(self, among):
        """Returns the next character, which must be one of `among`."""
        if not self.is_at(among):
            raise Stop(self.at)
        self.at += 1
        return self.text[self.at - 1]

    def blanks(self):
        while self.is_at(BLANKS):
            self.at += 1

    def line_ending(self):
        if self.take("\n\r") == "\r":
            self.take("\n")

    def comment(self):
        """Skips a comment up to its line ending, if there is one."""
        if self.is_at("#"):
            while self.here() and is_inside(self.here()):
                self.at += 1

    # ---- lines

    def document(self):
        while True:
            self.blanks()
            if self.is_at("["):
                self.header()
            elif self.here() and self.here() not in "#\n\r":
                self.pair()
            self.blanks()
            self.comment()
            if not self.here():
                return
            self.line_ending()

    def header(self):
        self.at += 1
        is_array = self.is_at("[")
        self.at += is_array
        self.blanks()
        self.key()
        for _ in range(1 + is_array):
            self.take("]")

    def pair(self):
        self.key()
        self.take("=")
        self.blanks()
        self.value()

    def key(self):
        """Parses a key and the whitespace after it."""
        while True:
            c = self.take(BARE + "\"'")
            if c in "\"'":
                self.string(c)
            else:
                while self.is_at(BARE):
                    self.at += 1
            self.blanks()
            if not self.is_at("."):
                return
            self.at += 1
            self.blanks()

    # ---- values

    def value(self):
        c = self.take("0123456789+-\"'[{tfin")
        if c in "\"'":
            self.string_or_long(c)
        elif c == "[":
            self.array()
        elif c == "{":
            self.inline_table()
        elif c in "+-":
            self.signed(c == "-")
        elif c in DIGITS:
            self.number_or_moment(c)
        else:
            self.word({"t": "rue", "f": "alse", "i": "nf", "n": "an"}[c])

    def word(self, letters):
        for letter in letters:
            self.take(letter)

    def gap(self):
        """Skips whitespace, comments and line endings."""
        while True:
            self.blanks()
            is_comment = self.is_at("#")
            self.comment()
            if not is_comment and not self.is_at("\r\n"):
                return
            self.line_ending()

    def array(self):
        self.gap()
        while not self.is_at("]"):
            self.value()
            self.gap()
            if not self.is_at(","):
                break
            self.at += 1
            self.gap()
        self.take("]")

    def inline_table(self):
        self.blanks()
        if self.is_at("}"):
            self.at += 1
            return
        while True:
            self.pair()
            self.blanks()
            if self.take("},") == "}":
                return
            self.blanks()

    # ---- strings

    def string_or_long(self, mark):
        if not self.is_at(mark):
            return self.string(mark)
        self.at += 1
        if not self.is_at(mark):
            return None
        self.at += 1
        return self.long_string(mark)

    def string(self, mark):
        while not self.is_at(mark):
            c = self.here()
            if not c or not is_inside(c):
                raise Stop(self.at)
            self.at += 1
            if c == "\\" and mark == '"':
                self.escape(self.take(ESCAPES))
        self.take(mark)

    def long_string(self, mark):
        while True:
            if self.is_at("\r\n"):
                self.line_ending()
                continue
            if self.is_at(mark):
                if self.closing(mark):
                    return
                continue
            c = self.here()
            if not c or not is_inside(c):
                raise Stop(self.at)
            self.at += 1
            if c == "\\" and mark == '"':
                self.long_escape(self.take(ESCAPES + BLANKS + "\n\r"))

    def closing(self, mark):
        """Parses one to five marks, and returns whether the string ends: three end it, and two more
        may belong to it."""
        count = 0
        while count < 5 and self.is_at(mark):
            self.at += 1
            count += 1
        return count >= 3

    def long_escape(self, c):
        if c not in BLANKS + "\n\r":
            return self.escape(c)
        self.at -= 1
        self.blanks()
        self.line_ending()
        while self.is_at(BLANKS + "\n\r"):
            if self.is_at(BLANKS):
                self.at += 1
            else:
                self.line_ending()
        return None

    def escape(self, c):
        """Parses the digits of an escape of a Unicode scalar value."""
        if c == "U":
            self.word("00")
            if self.take("01") == "1":
                self.word("0")
            elif self.take(HEX) == "0":
                return self.escape("u")
            return self.hexes(4)
        if c == "u":
            if self.take(HEX) in "dD":
                self.take("01234567")
                return self.hexes(2)
            return self.hexes(3)
        return None

    def hexes(self, count):
        for _ in range(count):
            self.take(HEX)

    # ---- numbers, dates and times

    def digits(self, among=DIGITS):
        """Parses one or more digits, and single underscores between them."""
        text = self.take(among)
        while self.is_at(among + "_"):
            if self.is_at("_"):
                self.at += 1
            text += self.take(among)
        return text

    def signed(self, is_negative):
        c = self.take(DIGITS + "in")
        if c in "in":
            return self.word({"i": "nf", "n": "an"}[c])
        return self.rest_of_number(c, is_negative)

    def rest_of_number(self, text, is_negative=False):
        """Parses the rest of a decimal number after digits that it begins with."""
        if text != "0" and self.is_at(DIGITS + "_"):
            self.at += self.is_at("_")
            text += self.digits()
        if int(text) >= 2**63 + is_negative and not self.is_at(".eE"):
            self.take(".eE")
            self.at -= 1
        if self.is_at("."):
            self.at += 1
            self.digits()
        if self.is_at("eE"):
            self.at += 1
            self.at += self.is_at("+-")
            self.digits()

    def number_or_moment(self, text):
        """Parses a number, a date or a time after its first digit."""
        if text == "0" and self.is_at("xob"):
            return self.other_base({"x": HEX, "o": HEX[:8], "b": HEX[:2]}[self.take("xob")])
        while len(text) < 4 and self.is_at(DIGITS):
            text += self.take(DIGITS)
        is_hour = len(text) == 2 and text < "24"
        # A number with more digits does not begin with 0.
        is_number = text[0] != "0" or len(text) == 1
        if is_hour and (self.is_at(":") or not is_number):
            return self.rest_of_time()
        if is_number and not (len(text) == 4 and self.is_at("-")):
            return self.rest_of_number(text)
        return self.rest_of_date(int(text + (self.take(DIGITS) if len(text) == 3 else "")))

    def other_base(self, among):
        """Parses the digits of an integer in base 16, 8 or 2. No digit may make it too large, and
        an underscore needs a digit after it."""
        base = min(len(among), 16)
        number = int(self.take(among), base)
        while self.is_at(among + "_"):
            if number * base >= 2**63:
                raise Stop(self.at)
            self.at += self.is_at("_")
            number = number * base + int(self.take(among), base)

    def two(self, first, last):
        """Parses two digits of a number in a range."""
        tens = self.take(DIGITS[first // 10 : last // 10 + 1])
        low = first % 10 if int(tens) == first // 10 else 0
        high = last % 10 if int(tens) == last // 10 else 9
        return int(tens) * 10 + int(self.take(DIGITS[low : high + 1]))

    def time(self):
        self.two(0, 23)
        self.rest_of_time()

    def rest_of_time(self):
        """Parses the rest of a time after its hour."""
        self.take(":")
        self.two(0, 59)
        self.take(":")
        self.two(0, 60)
        if self.is_at("."):
            self.at += 1
            self.take(DIGITS)
            while self.is_at(DIGITS):
                self.at += 1

    def rest_of_date(self, year):
        """Parses the rest of a date after its year, and the time after it, if there is one."""
        self.take("-")
        month = self.two(1, 12)
        self.take("-")
        is_leap = year % 4 == 0 and (year % 100 != 0 or year % 400 == 0)
        self.two(1, DAYS[month - 1] - (month == 2 and not is_leap))
        if self.is_at(" ") and self.text[self.at + 1 : self.at + 2] not in [*DIGITS]:
            return
        if self.is_at("Tt "):
            self.at += 1
            self.time()
            if self.is_at("Zz"):
                self.at += 1
            elif self.is_at("+-"):
                self.at += 1
                self.two(0, 23)
                self.take(":")
                self.two(0, 59)


def place(text):
    """Returns the first offset where the text cannot be continued, or None if it is a document."""
    reader = Reader(text)
    try:
        reader.document()
    except Stop as stop:
        return stop.args[0]
    return None
