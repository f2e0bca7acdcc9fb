"""Tests the verdicts of `scripts/edits` on rows of the prover's messages: none, for instance if a proof
only uses a missing name; rejected by a stored answer; or rejected by the prover."""
from edits_trial import open_goals, own_refusal, refusal_alone

# The function that the rows' edits change, the path of its proofs, and messages about it.
NAME, AT = "texts::places::Place::line", "./proofs/places/Place/line"
GOALS = "Rattle.texts.proofs.places.Place.line.Goals"
GONE = f"{AT}/Answers.antt:6:23: error: `returns-in-Some`: `goal.returns-in-Some`: module `{GOALS}`"
STALE = f"{GONE} has no `returns-in-Some` that can be named from here"
FIELD = f"{AT}/Answers.antt:9:5: error: `returns`: record `View.Start` has no field `before`"
SCOPE = f"{AT}/Answers.antt:9:5: error: `returns`: `length` is not in scope"
CITES = (
    f"{AT}/Answers.antt:12:5: error: 1 declaration that depends on `it`, which was rejected, "
    "was not checked: returns"
)
ANSWER = f"{AT}/Answers.antt:9:5: error: `returns`: `omega`: the goal does not follow"
OTHER = "./proofs/places/Place/column/Answers.antt:9:5: error: `returns`: `omega`: it is false"
OPEN = "note: src/places.rt:37:1: it is not proved that what the function ensures holds (`returns`)"
FALSE = f"{OPEN}; the facts known there allow values at which this goal is false"
CYCLE = "./proofs/places/+line+column/Answers.antt:9:5: error: `returns`: `omega`: it is false"
LEFT = f"fn {NAME}: not proved"
SEARCH = f"fn {NAME}: no proof: expected answers in {AT}; `search` did not prove `returns`"
WAITS = f"fn {NAME}: no proof: it calls `texts::places::feeds`, which is not proved"
NOTHING, BY_ANSWER, BY_PROVER = "nothing", "by an answer", "by the prover"

# The messages; the verdict on an edit in a group, if the open goals are its own; and the verdict on
# a single edit.
ROWS = [
    ([LEFT], NOTHING, NOTHING),
    ([STALE, LEFT], NOTHING, NOTHING),
    ([GONE, LEFT], NOTHING, NOTHING),
    ([f"{GONE} exports no such name", LEFT], NOTHING, NOTHING),
    ([FIELD, SCOPE, LEFT], NOTHING, NOTHING),
    ([FIELD, CITES, LEFT], NOTHING, NOTHING),
    ([WAITS], NOTHING, NOTHING),
    ([OTHER, LEFT], NOTHING, NOTHING),
    ([ANSWER, LEFT], BY_ANSWER, NOTHING),
    ([GONE, ANSWER, LEFT], BY_ANSWER, NOTHING),
    ([ANSWER, OPEN, LEFT], BY_PROVER, BY_PROVER),
    ([SEARCH], BY_PROVER, NOTHING),
    ([OPEN, SEARCH], BY_PROVER, BY_PROVER),
    ([GONE, SEARCH], BY_ANSWER, NOTHING),
    ([GONE, OPEN, LEFT], NOTHING, BY_ANSWER),
    ([STALE, OPEN, SEARCH], BY_ANSWER, BY_ANSWER),
    ([STALE, FALSE, SEARCH], BY_PROVER, BY_PROVER),
    ([CYCLE, LEFT], NOTHING, BY_ANSWER),
]


def kind(refusal):
    """Returns the word for a verdict."""
    if refusal is None:
        return NOTHING
    return BY_ANSWER if refusal.by_answer else BY_PROVER


def faults(room):
    """Returns the rows with a wrong verdict."""
    for said, *wanted in ROWS:
        found = [kind(own_refusal(said, NAME, open_goals(said))), kind(refusal_alone(said, True))]
        if found != wanted:
            yield f"{said}: {found[0]} in a group, {found[1]} of a single edit, not {wanted}"
