"""Tuples of sets, in the crate `stream_sets`."""
from family.common import conjunction, rust_tuple, upto, write

# As many sets as a tuple may have.
MOST = 10


def tells(k):
    return "(S%d.tells s.%d)" % (k, k - 1)


def tells_from(k, n):
    """Returns the relation of the sets from k to n, which are tested in order."""
    return tells(n) if k == n else "(InEither %s %s)" % (tells(k), tells_from(k + 1, n))


def set_impl(n):
    sets = rust_tuple(["S%d" % k for k in upto(n)])
    bounds = ", ".join("S%d: ContainsToken<T>" % k for k in upto(n))
    lines = [
        "impl<T: Copy, %s> ContainsToken<T> for %s {" % (bounds, sets),
        "    ghost can_test = { λ s. %s };" % conjunction(["S%d.can_test s.%d" % (k, k - 1) for k in upto(n)]),
        "",
        "    ghost tells = { λ s t b. %s t b };" % tells_from(1, n)[1:-1],
        "",
        "    #[inline(always)]",
        "    fn contains_token(&self, token: T) -> bool {",
        "        " + " || ".join("self.%d.contains_token(token)" % (k - 1) for k in upto(n)),
        "    }",
        "}",
    ]
    return "\n".join(lines)


SET_IMPLS = """//! Tuples of sets: their unions. The sets are tested in order.
//!
//! {head}
ghost use Rattle.stream_sets.specs.Sets.{{InEither}};

use crate::sets::ContainsToken;

{family}
"""


def write_sets():
    write("crates/stream_sets/src/sets/tuples.rt", SET_IMPLS, family="\n\n".join(set_impl(n) for n in upto(MOST)))
