#!/usr/bin/env python3
"""Reports odd phrases in comments and documents:

    python3 scripts/words.py          checks the files that changed since the base commit
    python3 scripts/words.py --all    checks all files together

The base is the merge base with `origin/main` if there is one, otherwise the last commit. A changed
file fails with at least two hits and more than three per 1,000 words; all files together fail with
more than that. Then each hit is printed with the first line of its paragraph, and what to write
instead. Code spans, code blocks and block quotes are not read.
"""
import re
import subprocess
import sys

from registry.common import TOP, read

LIMIT, FEWEST = 3, 2
# The phrases, and what to write. `^` is the start of a paragraph; `X` stands for a code span.
BE = r"(?:is|are|was|were|be)"
WHAT = r"(?:^|(?<=\. ))What (?!if\b|does\b|do\b|happens\b)[^?]*?(?=[.:;,]|$)"
PHRASES = [
    (WHAT, "a verb for a function (Returns, Parses), a noun for a type or a value"),
    (r"\b(?:stands?|stood)\b(?! (?:for|out|by|up|alone)\b)", "is, occurs, precedes, follows"),
    (r"(?<!take )\b(?:at|of|from|to|after|before|has|by|tells|past|with) "
     r"(?:a|the|its|each|one|this|that|which|every|the same|the first) places?\b",
     "offset, position, instead of"),
    (r"\brefus(?:e[sd]?|als?|ing)\b(?! connection)", "rejects, fails, is invalid, error"),
    (r"(?<!stored )\banswer(?:s|ed|ing)? (?:as|what|so|that|which|if|where|an?|the|no|nothing|X)\b",
     "returns"),
    (r"\b(?:an|its|their|final|whose|each|no) answers?\b(?! (?:section|record|file))", "result"),
    (rf"\b(?:that|what|{BE}) left\b(?=[.,;:)]|$| (?:of|over|after|there|where|with|in)\b)",
     "remains, the rest"),
    (r"\bask(?:s|ed|ing)? (?:for|of|no|nothing)\b",
     "needs, requires, allocates, returns `Incomplete`"),
    (r"\b(?:go|goes|went|going) on\b(?! to\b)", "continues"),
    (r"\bwhite space\b", "whitespace"),
    (r"\bline ends?\b(?! (?:at|in|with|on|before|after)\b)", "line ending"),
    (r"\bcut (?:inputs?|bytes|texts?|ones?)\b|\b(?:a|each|every|some) whole (?:inputs?|ones?)\b",
     "partial input, complete input"),
    (r"\bbehind\b(?! (?:an? |the |this )?(?:\w+ )?(?:reference|pointer|lock|feature|X))",
     "after, following"),
    (r"\bbeside\b", "next to, compared with, in addition to"),
    (r"\bwant(?:ing)? of memory\b|\bmemory (?:is|was) (?:wanting|refused)\b|"
     r"\baside\b(?! from\b)", "out of memory, unless an allocation fails"),
    (r"(?<!\bboth )\balike\b", "equal, equivalent"),
    (rf"(?<!here )\b{BE} no (?!longer|more|less|different|other|such|need|way|reason|use)[a-z]+",
     "is not a"),
    (r"\b(?:that|so) (?:many|much)\b", "the name of the number"),
    (r"(?:^|(?<=[.;] )|(?<=, ))[Ee]lse\b(?! if\b)", "otherwise"),
    (r"\bwhatever (?:follows|comes|it|is|the)\b", "for every, regardless of"),
    (rf"\b{BE} (?:told|said)\b|\b(?:tells?|says?) (?:so|of|what|where|which|how|why)\b",
     "returned, reported, documented, specified; has"),
    (r"\bbegun\b", "incomplete, a proper prefix of"),
    (r"\bin pieces\b", "in chunks, incrementally"),
    (r"(?<!page )(?<!segmentation )\bfaults?\b", "error"),
    (r"\b(?:lays?|laid) out\b(?! (?:in memory|as|like)\b)", "creates, generates"),
    (r"\bholds? of\b", "holds for, properties of"),
    (r", of which\b", "whose, or two sentences"),
    (r"\bone (?:after|behind) (?:the other|another)\b|\bin one another\b", "consecutive; nested"),
    (r"\bexactly (?:if|where|when)\b", "if and only if"),
    (r"\b(?:each|every|a|some|no|longest|proper|of its|two) beginnings?\b|"
     r"\b(?:leaves?|left|is|are|at) an end\b", "prefix; suffix"),
]
# A word of each phrase, to skip paragraphs that have none.
HEADS = re.compile(
    r"What |stand|stood|place|refus|answer|left|ask|go|went|white|line end|cut|whole|behind|"
    r"beside|memory|aside|alike| no |many|much|lse|ever|told|tell|sa[iy]|begun|pieces|fault|"
    r"lays? out|laid|hold|of which|one (?:after|behind|another)|exactly|beginning|an end"
)
# What precedes the text of a comment's line, by the end of the file's name; in scripts a number sign.
C = r"""[^"']*?//[/!]?|\s*/?\*+(?!/)"""
SHARP = r"\s*#(?!!)"
MARKS = {
    ".rt": C, ".rs": C, ".c": C, ".h": C, ".antt": r"(?:.*?\s)?--(?=\s|$)",
    ".md": r"(?!\s*>|[\s|:-]*$)", ".py": SHARP, ".sh": SHARP, "": SHARP,
}
ITEM = re.compile(r"(?:[-*#]+|\d+\.) ")
CODE = re.compile(r"``.+?``|`[^`]*`|(?<=\])\([^)]*\)|https?://\S+")


def lines_of(path):
    """Yields the text of each line of a comment or a document; an empty text for code."""
    mark, indent, is_doc, is_code = re.compile(MARKS[path.suffix]), "", False, False
    for line in read(path).splitlines():
        found, text = mark.match(line), ""
        if MARKS[path.suffix] == SHARP and (is_doc or line.lstrip().startswith('"""')):
            # Indented lines of a docstring are code.
            is_inside = is_doc and line.startswith(f"{indent}    ")
            text = "" if is_inside else line.strip().strip('"')
            indent = indent if is_doc else line[: len(line) - len(line.lstrip())]
            is_doc = is_doc != (line.count('"""') == 1)
        elif found:
            text = line[found.end() :].strip()
        is_code = is_code != text.startswith(("```", "~~~"))
        yield "" if is_code or text.startswith(("```", "~~~")) else text


def paragraphs(path):
    """Yields the paragraphs, list items and cells of a file, each with the number of its first
    line."""
    part, start = "", 0
    for number, line in enumerate([*lines_of(path), ""], 1):
        for cell in line.strip("|").split("|") if line.startswith("|") else [line]:
            if not line or line.startswith("|") or ITEM.match(line):
                yield start, part
                part = ""
            start = start if part else number
            part += f" {ITEM.sub('', cell.strip(), 1)}" if cell else ""


def hits_of(path):
    """Returns the number of words of a file, and its hits: the line, the phrase, what to write."""
    count, hits = 0, []
    for number, part in paragraphs(path):
        text = CODE.sub("X", part).strip()
        count += len(re.findall(r"[A-Za-z][A-Za-z'-]*", text))
        for phrase, write in PHRASES if HEADS.search(text) else ():
            # A heading of a document may begin with this word.
            if path.suffix != ".md" or phrase != WHAT:
                hits += [(number, it[0][:40], write) for it in re.finditer(phrase, text)]
    return count, hits


def git(*words):
    """Returns the lines that a git command prints."""
    ran = subprocess.run(["git", *words], cwd=TOP, capture_output=True, text=True, check=False)
    return ran.stdout.splitlines()


def is_read(path):
    """Returns whether a file is a document or has comments that are read."""
    return path.is_file() and path.suffix in MARKS and (path.suffix or read(path)[:2] == "#!")


def is_over(count, hits):
    return len(hits) >= FEWEST and 1000 * len(hits) > LIMIT * count


def main(words):
    base = (git("merge-base", "HEAD", "origin/main") or ["HEAD"])[0]
    names = git("ls-files") if words else git("diff", "--name-only", base)
    names += git("ls-files", "--others", "--exclude-standard")
    found = {it: hits_of(TOP / it) for it in sorted({*names}) if is_read(TOP / it)}
    if words:
        whole = sum(it[0] for it in found.values()), sum((it[1] for it in found.values()), [])
        print(f"{len(whole[1])} odd phrases in {whole[0]} words")
        found = found if is_over(*whole) else {}
    wrong = {name: hits for name, (count, hits) in found.items() if is_over(count, hits)}
    for name, hits in wrong.items():
        print(*(f"{name}:{number}: {phrase!r}: write {write}" for number, phrase, write in hits), sep="\n")
    return 1 if wrong else 0


if __name__ == "__main__":
    sys.exit(main(sys.argv[1:]))
