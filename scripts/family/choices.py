"""Choices between the members of a tuple, in the crate `winnow_comb`."""
from family.common import conjunction, rust_tuple, upto, write

# As many branches as winnow's tuples have; those of `LONG` and more are in a file of their own.
MOST, LONG = 9, 7


def nested(of, n, pair):
    """Pairs nested to the right."""
    term = of(n)
    for k in range(n - 1, 0, -1):
        term = pair(of(k), term)
    return term


def product(first, rest):
    return "%s × %s" % (first, "(%s)" % rest if " × " in rest else rest)


def definition(n):
    """Returns the definition of a choice between n branches, its terms, and the proof of them."""
    if n == 1:
        return ["    ghost %s = { P1.%s };" % (it, it) for it in ("does", "terms", "lawful")]

    def chosen(name, member):
        return nested(lambda k: "P%d.%s" % (k, member), n, lambda first, rest: "(%s %s %s)" % (name, first, rest))[1:-1]

    members = (("does", "AltDoes"), ("terms", "alt_terms"), ("lawful", "alt_meets"))
    return ["    ghost %s = { %s };" % (it, chosen(name, it)) for it, name in members]


def choice_impl(n):
    state = nested(lambda k: "P%d.state s.%d" % (k, k - 1), n, lambda a, b: "(%s, %s)" % (a, b))
    bounds = ", ".join("P%d: Parser<I, O, E>" % k for k in upto(n))
    does, terms, lawful = definition(n)
    lines = [
        "impl<I: Stream, O, E: ParserError<I>, %s> Alt<I, O, E> for %s {" % (bounds, rust_tuple(["P%d" % k for k in upto(n)])),
        "    ghost can_choose = { λ s. %s };" % conjunction(["P%d.can_parse s.%d" % (k, k - 1) for k in upto(n)]),
        "",
        "    ghost State = { %s };" % nested(lambda k: "P%d.State" % k, n, product),
        "",
        "    ghost state = { λ s. %s };" % state,
        "",
        does,
        "",
        terms,
        "",
        lawful,
        "",
        "    #[inline(always)]",
        "    fn choice(&mut self, input: &mut I) -> Result<O, E> {",
    ]
    if n > 1:
        lines.append("        let start = input.checkpoint();")
    for k in upto(n - 1):
        lines += [
            "        let failed = match attempt(&mut self.%d, input, &start, %s) {" % (k - 1, "None" if k == 1 else "failed"),
            "            Ok(answer) => return answer,",
            "            Err(failed) => failed,",
            "        };",
        ]
    last = "self.0.parse_next(input)" if n == 1 else "attempt_last(&mut self.%d, input, &start, failed)" % (n - 1)
    lines += ["        " + last, "    }", "}"]
    return "\n".join(lines)


CHOICE_IMPLS = """//! Tuples {which}as the branches of `alt`.
//!
//! {head}
ghost use Rattle.parser_definitions.specs.Alt.{{AltDoes}};
ghost use Rattle.parser_definitions.specs.Projects.Choices.{{alt_meets, alt_terms}};

{mods}
use crate::combinator::impls::alt::{{Alt, attempt, attempt_last}};
use stream_errors::parser_error::ParserError;
use streams::stream::Stream;
use winnow_core::parser::Parser;

{family}
"""

def attempt(step, k):
    """Returns the name of the facts that hold after attempt k."""
    return "c.%s" % step + ("" if k == 1 else "-attempt" if k == 2 else "-attempt-%d" % (k - 1))


def choice_answer(n, answering):
    """Returns the proof of the clause `ran` where branch `answering` of n gives the result."""
    goal = "returns-clause-ran" if answering == n else "returns-in-Ok-%s-clause-ran" % attempt("attempt", answering)[2:].removeprefix("attempt-")

    def does(k):
        return "g.P%d.Parser.does" % k

    def rest(k):
        term = does(n)
        for x in range(n - 1, k - 1, -1):
            term = "(AltDoes %s %s)" % (does(x), term)
        return term

    term = "c.attempt_last.ensures.ran"
    if answering < n:
        found = attempt("in-Ok", answering) + ".ensures.ran"
        term = "(alt_here %s %s _ _ _ _ _ %s.0 %s.1 refl)" % (does(answering), rest(answering + 1), found, found)
    for k in range(answering - 1, 0, -1):
        at = "c.checkpoint-start.ensures" if k == 1 else "(sym (ap (λ x. x.left) %s.ensures.ran.2))" % attempt("in-Err", k - 1)
        term = "(alt_next %s %s _ _ _ _ _ _ _ %s %s.ensures.ran %s)" % (does(k), rest(k + 1), at, attempt("in-Err", k), term)
    return "pub %s : goal.%s\n%s g c = %s" % (goal, goal, goal, term[1:-1])


CHOICE_ANSWERS = """-- {head}
use Rattle.std.proofs.Common.{{{common}}}
use Rattle.parser_definitions.specs.Alt.{{AltDoes}}
use Rattle.winnow_comb.proofs.AltLemmas.{{alt_here, alt_next}}
use Rattle.winnow_comb.proofs.combinator.impls.alt.tuples.{long}Tuple{n}Alt.choice.Goals as goal

{answers}
"""


def write_choices():
    comb = "crates/winnow_comb/"
    impls = comb + "src/combinator/impls/alt/"
    short, long = ("\n\n".join(choice_impl(n) for n in part) for part in (range(1, LONG), range(LONG, MOST + 1)))
    write(impls + "tuples.rt", CHOICE_IMPLS, which="", mods="\nmod long;\n", family=short)
    write(impls + "tuples/long.rt", CHOICE_IMPLS, which="of seven to nine ", mods="", family=long)
    # Proofs that the prover does not find: results after branches that backtracked.
    for n in range(3, MOST + 1):
        answers = "\n\n".join(choice_answer(n, k) for k in range(2, n + 1))
        folder = "long/" if n >= LONG else ""
        path = comb + "proofs/combinator/impls/alt/tuples/%sTuple%dAlt/choice/Answers.antt" % (folder, n)
        write(path, CHOICE_ANSWERS, n=n, long=folder.replace("/", "."), common="refl, sym, ap", answers=answers)
