"""The picture of the crates, `docs/generated/CRATES.md`: a Mermaid diagram, which viewers of Markdown
draw."""
from registry.common import HEAD, TOP, below, crates, write

PAGE = TOP / "docs/generated/CRATES.md"
ABOUT = """<!-- {head} -->

# The crates

An arrow leads from a crate to each crate that it depends on, unless another path leads there too.
Crates in one box have the same dependencies, and nothing depends on them.

```mermaid
graph TD
{lines}
```
"""


def reduced(on):
    """Returns the dependencies of each crate without those that another one depends on."""
    under = {name: below(name, on) - {name} for name in on}
    return {
        name: [it for it in others if not any(it in under[other] for other in others)]
        for name, others in on.items()
    }


def write_picture():
    known = crates()
    direct = reduced({name: [it for it in on if it in known] for name, on in known.items()})
    used, boxes = {it for on in direct.values() for it in on}, {}
    for name, on in direct.items():
        boxes.setdefault(name if name in used else tuple(on), []).append(name)
    lines = []
    for first, *others in boxes.values():
        lines += [f'    {first}["{"<br>".join([first, *others])}"]'] if others else []
        lines += [f"    {first} --> {' & '.join(direct[first])}"] if direct[first] else []
    write(PAGE, ABOUT.format(head=HEAD, lines="\n".join(lines)))
