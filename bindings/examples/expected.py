#!/usr/bin/env python3
"""Checks the expected outputs of the programs against the parsers of Python's standard library:
`http_heads.expected`, `toml_to_json.expected` (from Python 3.11) and `csv_to_json.expected`."""
import csv
import http.client
import json
import math
import pathlib
import sys

HERE = pathlib.Path(__file__).resolve().parent


def heads():
    """Returns the heads of the requests, in the form of http_heads.cpp."""
    text = ""
    with (HERE / "requests.http").open("rb") as file:
        while line := file.readline():
            fields = http.client.parse_headers(file)
            text += " ".join(line.decode().split(" ")[:2]) + "\n"
            text += "".join(f"    {name}: {value}\n" for name, value in fields.items())
            file.read(int(fields.get("Content-Length", 0)))
    return text


def plain(value):
    """Returns a value of TOML as JSON has it."""
    if isinstance(value, dict):
        return {name: plain(it) for name, it in value.items()}
    if isinstance(value, list):
        return [plain(it) for it in value]
    if isinstance(value, float):
        return value if math.isfinite(value) else str(value)
    return value if isinstance(value, (str, int)) else value.isoformat()


def tree():
    """Returns the contents of the TOML document, or None without a parser."""
    try:
        import tomllib  # pylint: disable=import-outside-toplevel
    except ImportError:
        print("Python has no tomllib: skipping the check of toml_to_json.expected")
        return None
    return plain(tomllib.loads((HERE / "example.toml").read_text(encoding="utf-8")))


def records():
    """Returns the records of the table."""
    with (HERE / "table.csv").open(newline="", encoding="utf-8") as file:
        return list(csv.DictReader(file))


def main():
    made = {"http_heads": heads(), "toml_to_json": tree(), "csv_to_json": records()}
    wrong = 0
    for name, value in made.items():
        text = (HERE / f"{name}.expected").read_text(encoding="utf-8")
        if value is not None and value != (text if isinstance(value, str) else json.loads(text)):
            print(f"examples/{name}.expected: Python's parser reads {value}")
            wrong = 1
    return wrong


if __name__ == "__main__":
    sys.exit(main())
