#!/usr/bin/env python3
"""Creates the files of a new parser:

    ./x new leaf FILE NAME          for instance `./x new leaf crates/winnow_token/src/token.rt word`
    ./x new combinator FILE NAME
    ./x new reader NAME             a format, as a crate `format_NAME` (`new_reader.py`)

FILE gets the function NAME. The templates are two parsers of the library under the new name, `any`
for a leaf and `opt` for a combinator, with their proofs. So the new files are proved unchanged, and
can then be changed step by step. A test, an edit and a note are created too, the lists and tables
of parsers are updated, and each file is formatted, so that the checks of names pass. It prints what
to change.
"""
import pathlib
import re
import subprocess
import sys

sys.path.insert(0, str(pathlib.Path(__file__).resolve().parent))
from new_beside import beside  # noqa: E402
from new_names import fault_of_name, fault_of_place  # noqa: E402
from new_reader import lay_reader  # noqa: E402
from registry.common import CRATES, TOP, camel, read  # noqa: E402
from wrap import wrapped  # noqa: E402

MODELS = {
    "leaf": ("any", CRATES / "winnow_token/src/token.rt"),
    "combinator": ("opt", CRATES / "winnow_comb/src/combinator/basic.rt"),
}
NEXT = """Now change, in this order:
  {does}: the definition `{kind}Does`, a line per case, with its law, and its grammar in
    `specs/Projects`; until then the parser has those of the model
  {file}: the clauses, the documentation and the body of `{name}`
  {impls}: the struct `{kind}`, and its impl of `Parser`, with the claim
  {test}: its results, with expected values from another source
  {edit}, `{name}_..`: a line of the code, and a wrong replacement
  {note}: a line for the release notes
`./x quick` reports what is missing."""
# An equivalent line, so that the model's line stays unique in its file: an edit names it.
OTHERWISE = ("match input.next_token() {", "match Input::next_token(input) {")


class Place:
    """The location of a parser: its crate, its module, and the file of its function."""

    def __init__(self, name, file):
        self.name, self.file = name, file
        self.crate = CRATES / file.relative_to(CRATES).parts[0]
        path = file.relative_to(self.crate / "src").with_suffix("")
        self.module, self.path = path.parts[0], path.parts
        self.impls = self.crate / "src" / self.module / "impls" / f"{name}.rt"


def renamed(text, of, to):
    """Returns the model's text with the new names, in code and in code spans of comments. First it
    writes placeholders, since the new names may begin with the model's."""
    kind, new, name = camel(of.name), "\0", "\1"
    # The model's definition and its laws stay.
    kept = [f"specs.{kind}.", f"{kind}Does", f"{kind}Runs", f"{of.name}_ran", f"{of.name}_law"]
    kept += [f"{of.name}_projects"]
    for place, it in enumerate(kept):
        text = text.replace(it, chr(2 + place))
    text = text.replace(f"specs.declared.{of.module}.impls.{of.name}.", f"specs.declared.{to.module}.impls.{name}.")
    text = text.replace(f"Rattle.{of.crate.name}.specs.declared", f"Rattle.{to.crate.name}.specs.declared")
    text = re.sub(rf"\bcrate::{of.module}::", f"crate::{to.module}::", text)
    lines, is_code = [], False
    for line in text.split("\n"):
        is_comment = line.lstrip().startswith(("//", "--"))
        is_code = is_comment and is_code != line.rstrip().endswith("```")
        if is_comment and not is_code:
            line = re.sub(rf"(?<=[`:]){of.name}(?=[`)])|\b{of.name}(?=_)", name, line)
            line = re.sub(rf"\b{kind}(?=[A-Z])", new, line)
        else:
            line = re.sub(rf"\b{kind}(?=[A-Z]|\b)", new, line)
            line = re.sub(rf"\b{of.name}(?=_|\b)", name, line)
        lines.append(line)
    text = "\n".join(lines).replace(new, camel(to.name)).replace(name, to.name)
    for place, it in enumerate(kept):
        text = text.replace(chr(2 + place), it)
    return text


def function(of):
    """Returns the model's function with its documentation, without its names in other libraries."""
    found = re.search(rf"(?:^(?:///|#\[).*\n)*^pub fn {of.name}\b(?:.*\n)*?^\}}\n", read(of.file), re.MULTILINE)
    return re.sub(r"///\n/// Known as .*\n", "", found[0]).replace(*OTHERWISE)


def imports(text):
    """Returns the imports of a file: the words before each path, the path and the name."""
    for words, path, names in re.findall(
        r"^((?:ghost )?use )([\w.:◌]+?)(?:\.|::)(?:\{([^}]*)\}|\w+);", text, re.MULTILINE
    ):
        for name in re.findall(r"[^\s,{}]+", names):
            yield words, path, name
    for path, name in re.findall(r"^use ([\w:]+)::(\w+);", text, re.MULTILINE):
        yield "use ", path, name


def with_import(text, words, line):
    """Returns a text with one more import, inserted in order."""
    lines = list(re.finditer(rf"^{words}(?:[^;]*);\n", text, re.MULTILINE))
    behind = [it.end() for it in lines if it[0] < line]
    at = behind[-1] if behind else lines[0].start() if lines else text.index("\n\n") + 2
    return text[:at] + line + text[at:]


def with_function(of, to):
    """Returns the text of the new parser's file with its function and the imports for it."""
    body, text = function(of), read(to.file)
    have = {name for *_, name in imports(text)}
    for words, path, name in imports(read(of.file)):
        is_named = re.search(rf"(?<!\w){re.escape(name.strip('◌'))}(?!\w)", body)
        new = renamed(name, of, to)
        if is_named and new not in have:
            path = path.replace("crate::", f"{of.crate.name}::") if of.crate != to.crate and "impls" not in path else path
            brought = f"{path}.{{{name}}}" if "Rattle" in path else f"{path}::{name}"
            line = wrapped(renamed(f"{words}{brought};\n", of, to), False)
            text = with_import(text, words, line)
    return text.rstrip("\n") + "\n\n" + wrapped(renamed(body, of, to), False)


def copies(of, to):
    """Returns pairs of the model's files and the new parser's files."""
    yield of.impls, to.impls
    for file in sorted((of.crate / "proofs").joinpath(*of.path, of.name).glob("*.antt")):
        yield file, (to.crate / "proofs").joinpath(*to.path, to.name) / file.name
    folder = of.crate / "proofs" / of.module / "impls" / of.name
    for file in sorted(folder.rglob("*.antt")):
        path = str(file.relative_to(folder)).replace(camel(of.name), camel(to.name))
        yield file, to.crate / "proofs" / to.module / "impls" / to.name / path


def name_in_module(to):
    """Re-exports the function from the root of its module, if that is another file."""
    root = to.crate / "src" / f"{to.module}.rt"
    path = "crate::" + "::".join(to.path)
    found = re.search(rf"^pub use {path}::(?:\{{([^}}]*)\}}|(\w+));", read(root), re.MULTILINE)
    if root != to.file and found:
        names = sorted({*re.findall(r"\w+", found[1] or found[2]), to.name})
        text = read(root).replace(found[0], f"pub use {path}::{{{', '.join(names)}}};")
        root.write_text(text, encoding="utf-8")


def written():
    """Updates the generated lists, and returns the crates with a changed file."""
    how = {"check": True, "capture_output": True, "text": True}
    said = subprocess.run([sys.executable, str(TOP / "scripts/registries.py")], **how).stdout
    return {CRATES / name for name in re.findall(r"^crates/(\w+)/", said, re.MULTILINE)}


def main(words):
    if words[:1] == ["reader"] and len(words) == 2:
        print(lay_reader(words[1]))
        return
    if len(words) != 3 or words[0] not in MODELS or not words[1].endswith(".rt"):
        sys.exit(__doc__.strip())
    of, file = Place(*MODELS[words[0]]), pathlib.Path(words[1]).resolve()
    if wrong := fault_of_place(file):
        sys.exit(wrong)
    to = Place(words[2], file)
    if wrong := fault_of_name(of, to, function(of)):
        sys.exit(wrong)
    to.file.write_text(with_function(of, to), encoding="utf-8")
    for old, new in copies(of, to):
        new.parent.mkdir(parents=True, exist_ok=True)
        text = wrapped(renamed(read(old), of, to), new.suffix == ".antt")
        new.write_text(text, encoding="utf-8")
    name_in_module(to)
    more = beside(words[0], to)
    for path, text in more.items():
        path.parent.mkdir(parents=True, exist_ok=True)
        path.write_text(text, encoding="utf-8")
    for crate in sorted({to.crate, *written()}):
        subprocess.run(["rt", "fmt"], cwd=crate, check=False, stdout=subprocess.DEVNULL)
    shown = {"file": to.file, "impls": to.impls}
    shown |= dict(zip(("test", "edit", "note"), more))
    shown["does"] = CRATES / "parser_definitions/specs" / f"{camel(to.name)}.antt"
    shown = {key: path.relative_to(TOP) for key, path in shown.items()}
    print(NEXT.format(**shown, name=to.name, kind=camel(to.name)))


if __name__ == "__main__":
    main(sys.argv[1:])
