#!/usr/bin/env python3
"""Generates the inputs of `bindings/beside`: `inputs.py FOLDER`.

Each text is generated from a fixed seed, so it is the same everywhere. Some texts repeat one form; the
log, the statuses and the table are as long and as varied as real data. They are generated once, and
again if this script changes.
"""
import json
import pathlib
import random
import sys

AGENTS = (
    "Mozilla/5.0 (X11; Linux x86_64; rv:109.0) Gecko/20100101 Firefox/115.0",
    "Mozilla/5.0 (Windows NT 10.0; Win64; x64) AppleWebKit/537.36 (KHTML, like Gecko) "
    "Chrome/118.0.0.0 Safari/537.36",
    "Mozilla/5.0 (iPhone; CPU iPhone OS 16_6 like Mac OS X) AppleWebKit/605.1.15 (KHTML, like Gecko) "
    "Version/16.6 Mobile/15E148 Safari/604.1",
    "curl/7.88.1",
    "Mozilla/5.0 (compatible; bingbot/2.0; +http://www.bing.com/bingbot.htm)",
)
ACCEPTED = ("*/*", "text/html,application/xml;q=0.9,*/*;q=0.8", "image/webp,*/*")
WORDS = (
    "the of and to in is that for it as was with be by on not he his but at are this have from or had "
    "an they which one you were her all she there would their we him been has when who will more no if "
    "out so said what up its about into than them can only other new some could time these two may then"
).split()
JAPANESE = "名前一覧今日天気電車仕事学校先生友達写真映画音楽料理朝食昼夜明日昨日時間場所お知らせです"
HEAD = (
    "GET /wp-content/uploads/2010/03/hello-kitty-darth-vader-pink.jpg HTTP/1.1\r\n"
    "Host: www.kittyhell.com\r\n"
    "User-Agent: Mozilla/5.0 (Macintosh; U; Intel Mac OS X 10.6; ja-JP-mac; rv:1.9.2.3)\r\n"
    "Accept: text/html,application/xhtml+xml,application/xml;q=0.9,*/*;q=0.8\r\n"
    "Accept-Language: ja,en-us;q=0.7,en;q=0.3\r\nAccept-Encoding: gzip,deflate\r\n"
    "Accept-Charset: Shift_JIS,utf-8;q=0.7,*;q=0.7\r\nKeep-Alive: 115\r\n"
    "Connection: keep-alive\r\nCookie: wp_ozh_wsa_visits=2; __utma=xxxxxxxxx.xxxxxxxxxx\r\n\r\n"
)


class Seed:
    """Numbers and choices from a seed, with the only function that is the same in every Python."""

    def __init__(self, seed):
        self.random = random.Random(seed).random

    def below(self, most):
        return int(self.random() * most)

    def one(self, things):
        return things[self.below(len(things))]

    def words(self, count):
        return " ".join(self.one(WORDS) for _ in range(count))


def items(_):
    """An array of objects with numbers, strings and arrays."""
    lines = (
        f'{{"id": {k}, "name": "item \\u00e9 {k}", "price": {k * 7}.5e-1, '
        f'"tags": ["a", "bc", null, true, [{k}]]}}'
        for k in range(8000)
    )
    return "[" + ",\n".join(lines) + "]\n"


def strings(seed):
    """An array of paragraphs: 90 % of the text are strings, some with escapes."""
    lines = []
    for _ in range(2000):
        parts = [seed.words(4 + seed.below(12)) for _ in range(1 + seed.below(8))]
        lines.append('"' + seed.one((". ", "\\n", " — ", ' \\"')).join(parts) + '"')
    return "[" + ",\n".join(lines) + "]\n"


def status(seed, indent):
    """One status with its user, similar to the API of a microblog."""
    text = "".join(seed.one(JAPANESE) for _ in range(20 + seed.below(60)))
    number = 505874847260352513 - seed.below(1 << 40)
    name = "".join(seed.one(JAPANESE) for _ in range(3 + seed.below(8)))
    lines = [
        "{",
        '  "metadata": {',
        '    "result_type": "recent",',
        '    "iso_language_code": "ja"',
        "  },",
        f'  "created_at": "Sun Aug 31 00:{seed.below(60):02}:{seed.below(60):02} +0000 2014",',
        f'  "id": {number},',
        f'  "id_str": "{number}",',
        f'  "text": "@{seed.one(WORDS)}\\n{text} http:\\/\\/t.co\\/{seed.below(1 << 30):x}",',
        '  "source": "<a href=\\"http:\\/\\/twitter.com\\/download\\/iphone\\" '
        'rel=\\"nofollow\\">Twitter for iPhone<\\/a>",',
        f'  "truncated": {seed.one(("false", "false", "true"))},',
        '  "in_reply_to_status_id": null,',
        '  "user": {',
        f'    "id": {seed.below(1 << 31)},',
        f'    "name": "{name}",',
        f'    "screen_name": "{seed.one(WORDS)}_{seed.below(1000)}",',
        '    "location": "",',
        f'    "description": "{text[:30]} ⇒ {name}",',
        '    "url": null,',
        f'    "followers_count": {seed.below(5000)},',
        f'    "friends_count": {seed.below(2000)},',
        '    "utc_offset": 32400,',
        '    "time_zone": "Tokyo",',
        '    "geo_enabled": false,',
        f'    "profile_background_color": "{seed.below(1 << 24):06X}",',
        '    "profile_image_url": "http:\\/\\/pbs.twimg.com\\/profile_images\\/'
        f'{seed.below(1 << 40)}\\/normal.jpeg",',
        '    "notifications": false',
        "  },",
        '  "geo": null,',
        f'  "coordinates": {seed.one(("null", "null", "[139.691706, 35.689487]"))},',
        f'  "retweet_count": {seed.below(300)},',
        '  "entities": {',
        '    "hashtags": [],',
        '    "urls": [],',
        '    "user_mentions": [',
        "      {",
        f'        "screen_name": "{seed.one(WORDS)}",',
        f'        "indices": [{seed.below(9)}, {10 + seed.below(9)}]',
        "      }",
        "    ]",
        "  },",
        '  "favorited": false,',
        '  "lang": "ja"',
        "}",
    ]
    return "\n".join(indent + line for line in lines)


def statuses(seed):
    """Statuses similar to the API of a microblog, with whitespace and Japanese text."""
    lines = ",\n".join(status(seed, "    ") for _ in range(400))
    behind = '\n  ],\n  "search_metadata": {\n    "count": 400\n  }\n}\n'
    return '{\n  "statuses": [\n' + lines + behind


def coordinates(seed):
    """Borders of a country: rings of pairs of numbers with up to 17 digits."""
    rings = []
    for _ in range(40):
        east, north, pairs = -141 + 88 * seed.random(), 42 + 41 * seed.random(), []
        for _ in range(100 + seed.below(700)):
            east, north = east + seed.random() / 50, north - seed.random() / 90
            pairs.append([east, north])
        rings.append(pairs)
    border = {"type": "Polygon", "coordinates": rings}
    return json.dumps({"type": "FeatureCollection", "features": [{"type": "Feature", "geometry": border}]})


def catalog(seed):
    """Events of concert halls, with whitespace: objects that have the same names, and integers."""

    def category(number):
        areas = [{"areaId": 205705000 + seed.below(1000), "blockIds": []} for _ in range(1 + seed.below(12))]
        return {"areas": areas, "seatCategoryId": 338937000 + number}

    def price(number):
        kind = 337100000 + seed.below(1000)
        return {"amount": 50 * seed.below(2000), "audienceSubCategoryId": kind, "seatCategoryId": number}

    def performance(number):
        count = 1 + seed.below(6)
        return {
            "eventId": 138586000 + seed.below(200),
            "id": 339887000 + number,
            "logo": seed.one((None, None, "/images/UE0AAAAACEKo6QAAAAZDSVRN")),
            "name": None,
            "prices": [price(338937000 + k) for k in range(count)],
            "seatCategories": [category(k) for k in range(count)],
            "seatMapImage": None,
            "start": 1372701600000 + 86400000 * seed.below(1000),
            "venueCode": seed.one(("PLEYEL_PLEYEL", "SALLE_CORTOT")),
        }

    events = {
        str(138586000 + k): {
            "description": None,
            "id": 138586000 + k,
            "name": seed.words(3),
            "subTopicIds": [337184000 + seed.below(1000) for _ in range(1 + seed.below(4))],
            "subtitle": None,
        }
        for k in range(200)
    }
    return json.dumps({"events": events, "performances": [performance(k) for k in range(300)]}, indent=2)


def lines(seed):
    """An array of strings of 64 bytes, without escapes."""
    made = (f'"{(seed.words(20) + "." * 64)[:64]}"' for _ in range(8000))
    return "[" + ",\n".join(made) + "]\n"


def heads(_):
    """The same request head of a browser, repeated."""
    return HEAD * 1000


def log(seed):
    """Request heads as in a server's log: pages, images, style sheets and searches, of five agents."""
    made = []
    for _ in range(10000):
        path = "/".join(seed.one(WORDS) for _ in range(1 + seed.below(4)))
        search = f"?q={seed.one(WORDS)}&page={seed.below(40)}"
        path += seed.one((".html", ".png", ".css", "/", search))
        lines = [
            f"{seed.one(('GET', 'GET', 'GET', 'GET', 'HEAD', 'OPTIONS'))} /{path} HTTP/1.1",
            f"Host: {seed.one(('www', 'static', 'api'))}.example.com",
            f"User-Agent: {seed.one(AGENTS)}",
            f"Accept: {seed.one(ACCEPTED)}",
        ]
        if seed.below(10) < 8:
            lines.append("Accept-Encoding: gzip, deflate, br")
            lines.append(f"Accept-Language: {seed.one(('en-US,en;q=0.5', 'de', 'ja,en;q=0.7'))}")
        if seed.below(10) < 5:
            lines.append(f"Referer: https://www.example.com/{seed.one(WORDS)}/")
        if seed.below(10) < 4:
            session = f"{seed.below(1 << 62):016x}"
            lines.append(f"Cookie: session={session}; theme=dark; _ga=GA1.2.{seed.below(1 << 30)}")
        if seed.below(10) < 2:
            lines.append(f'If-None-Match: "{seed.below(1 << 40):x}"')
        if seed.below(10) < 3:
            lines.append(f"X-Forwarded-For: 192.0.2.{seed.below(256)}")
        made.append("\r\n".join(lines) + "\r\n\r\n")
    return "".join(made)


def chunks(size):
    """Returns a generator of chunked bodies of 2,000,000 bytes of content, in chunks of this size."""

    def body(seed):
        data = (seed.words(1000) * 20)[:size]
        return f"{size:x}\r\n{data}\r\n" * (2000000 // size) + "0\r\n\r\n"

    return body


def records(_):
    """CSV records; a quarter of the fields are quoted."""
    return "".join(
        f'{k},item {k},"a ""{k}"", b",{k * 7}.5,,"two\nlines",plain text\n' for k in range(10000)
    )


def semicolons(_):
    """The same records with semicolons, single quotes, and carriage returns with line feeds."""
    return records(_).translate(str.maketrans(",;\"'\n", ";,'\"\0")).replace("\0", "\r\n")


def table(seed):
    """A table of a million records: numbers, a date, one or two words, and few quoted fields."""
    made = []
    for k in range(1000000):
        note = seed.one(WORDS)
        if seed.below(20) == 0:
            note = f'"{note}, ""{seed.one(WORDS)}"""'
        made.append(
            f"{k},2024-{1 + seed.below(12):02}-{1 + seed.below(28):02},"
            f"{seed.one(WORDS)},{seed.below(100000) / 100},{note}\n"
        )
    return "".join(made)


def small(seed):
    """Redis replies of a client that requests single values."""
    made = []
    for _ in range(40000):
        kind = seed.below(8)
        if kind < 2:
            made.append("+OK\r\n")
        elif kind < 4:
            made.append(f":{seed.below(100000)}\r\n")
        elif kind < 6:
            word = seed.one(WORDS) + str(seed.below(1 << 30))
            made.append(f"${len(word)}\r\n{word}\r\n")
        elif kind < 7:
            made.append("$-1\r\n")
        else:
            made.append(f"*3\r\n$3\r\nkey\r\n:{seed.below(1000)}\r\n$5\r\nvalue\r\n")
    return "".join(made)


def large(seed):
    """Bulk strings of 64 KiB to 192 KiB."""
    made = []
    for _ in range(16):
        text = (seed.words(1000) * 64)[: (64 << 10) + seed.below(128 << 10)]
        made.append(f"${len(text)}\r\n{text}\r\n")
    return "".join(made)


def array(_):
    """An array of bulk strings."""
    return "*100000\r\n" + "".join(f"$20\r\nvalue:{k:014}\r\n" for k in range(100000))


def settings(seed):
    """Settings in sections, some followed by a comment."""
    made = []
    for section in range(1000):
        made.append(f"; {seed.words(6)}\n[section {section}]\n")
        for _ in range(4 + seed.below(24)):
            number, path = str(seed.below(1 << 20)), "/var/lib/" + seed.one(WORDS)
            value = seed.one((number, path, seed.words(5)))
            comment = seed.one(("", "", " ; " + seed.words(2)))
            made.append(f"{seed.one(WORDS)}{seed.below(100)} = {value}{comment}\n")
        made.append("\n")
    return "".join(made)


def document(seed):
    """A TOML document: tables with values of all kinds, arrays of tables, and comments."""
    made = ['title = "Settings"\ncreated = 2024-05-27T07:32:00Z\n\n']
    for k in range(1200):
        made.append(f"# {seed.words(6)}\n[servers.unit-{k}]\n")
        made.append(f'name = "{seed.words(3)}"\npath = \'C:\\data\\{seed.one(WORDS)}\'\n')
        made.append(f"port = {1024 + seed.below(60000)}\nenabled = {seed.one(('true', 'false'))}\n")
        made.append(f"ratio = {seed.below(1000) / 8}\nsince = 2024-{1 + seed.below(12):02}-15\n")
        hosts = ", ".join(f'"{seed.one(WORDS)}.example.org"' for _ in range(1 + seed.below(4)))
        made.append(f"hosts = [{hosts}]\nlimits = {{ soft = {seed.below(100)}, hard = 1_000 }}\n\n")
        made.append(f'[[jobs]]\nid = {k}\nnote = "{seed.words(5)} \\"{seed.one(WORDS)}\\""\n\n')
    return "".join(made)


FILES = {
    "items.json": items,
    "strings.json": strings,
    "statuses.json": statuses,
    "coordinates.json": coordinates,
    "catalog.json": catalog,
    "lines.json": lines,
    "heads.http": heads,
    "log.http": log,
    "small.chunked": chunks(16),
    "large.chunked": chunks(1000),
    "records.csv": records,
    "semicolons.csv": semicolons,
    "table.csv": table,
    "small.resp": small,
    "large.resp": large,
    "array.resp": array,
    "settings.ini": settings,
    "settings.toml": document,
}


def main(folder):
    folder.mkdir(parents=True, exist_ok=True)
    own, made_by = pathlib.Path(__file__).read_text(encoding="utf-8"), folder / "made_by"
    if made_by.is_file() and made_by.read_text(encoding="utf-8") == own:
        return
    for name, make in FILES.items():
        (folder / name).write_bytes(make(Seed(name)).encode())
    made_by.write_text(own, encoding="utf-8")


if __name__ == "__main__":
    if len(sys.argv) != 2:
        sys.exit(__doc__.strip())
    main(pathlib.Path(sys.argv[1]))
