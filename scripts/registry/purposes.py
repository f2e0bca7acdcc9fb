"""The rows of the table of parsers, and nom's names."""

# The parsers by purpose. A row has a crate and names; the consumed input; the output, if the type in
# the code does not suffice; and the word of the grammar.
PURPOSES = {
    "Tokens and literals": """
winnow_token any | one token | | `Token`
winnow_token literal | the literal | | `Literally`
winnow_token one_of | one token of the set | | `TokenOf`
winnow_token none_of | one token outside the set | | `TokenOf`, `Others`
""",
    "Slices of the input": """
winnow_token take | `token_count` tokens | | `Counted`
winnow_token take_while | as many tokens of the set as the range allows | | `Longest`
winnow_token take_till | as many tokens outside the set as the range allows | | `Longest`, `Others`
winnow_token take_until | the tokens before the first occurrence of the literal | | `Before`
winnow_token rest | all remaining tokens | | `AllTokens`
winnow_token rest_len | nothing | the number of remaining units | `UnitsLeft`
""",
    "ASCII classes and line endings": """
winnow_ascii alpha0 alpha1 | letters: zero or more, one or more | | `Class`
winnow_ascii alphanumeric0 alphanumeric1 | letters and digits | | `Class`
winnow_ascii digit0 digit1 | decimal digits | | `Class`
winnow_ascii hex_digit0 hex_digit1 | hexadecimal digits | | `Class`
winnow_ascii oct_digit0 oct_digit1 | octal digits | | `Class`
winnow_ascii space0 space1 | spaces and tabs | | `Class`
winnow_ascii multispace0 multispace1 | spaces, tabs, line feeds and carriage returns | | `Class`
winnow_ascii crlf | CRLF | | `LiterallyBytes`
winnow_ascii newline | a line feed | | `Literally`
winnow_ascii tab | a tab | | `Literally`
winnow_ascii line_ending | a line feed or CRLF | | `LineEnd`
winnow_ascii till_line_ending | the tokens before the next line ending, or all | | `Line`
""",
    "Numbers as text": """
winnow_numbers dec_uint | the digits of a number, without leading zeros | the number | `Decimal`
winnow_numbers dec_int | an optional sign and digits, without leading zeros | the number | `SignedDecimal`
winnow_numbers hex_uint | all hexadecimal digits, if the type holds as many | the number | `Hexadecimal`
""",
    "Text with escapes": """
winnow_escapes take_escaped | `normal` text, and `control` followed by `escapable` | |
winnow_escapes escaped | `normal` text, and `control` followed by `escape` | their outputs, accumulated |
""",
    "Sequences": """
winnow_comb preceded | `ignored`, then `parser` | | `Both`
winnow_comb terminated | `parser`, then `ignored` | | `Both`
winnow_comb delimited | `ignored1`, `parser`, `ignored2` | | `Three`
winnow_comb separated_pair | `first`, `separator`, `second` | | `Three`
""",
    "Choices and options": """
winnow_comb alt | the first alternative that does not backtrack | | `Either`, `FirstOf`
winnow_comb opt | `parser`, or nothing if it backtracks | | `Optional`
winnow_comb cond | `parser` if the condition is true, otherwise nothing | | `When`
winnow_comb peek | nothing, if `parser` succeeds | | `Ahead`
winnow_comb not | nothing, if `parser` backtracks | | `NotAhead`
winnow_comb empty | nothing | | `Nothing`
winnow_comb fail | nothing; it never succeeds | | `Never`
winnow_core eof | nothing, at the end of the input | | `NoTokens`
""",
    "Repetition": """
winnow_repeat repeat | `parser`, as often as the range allows | | `Repeated`
winnow_repeat fold | the `repeat` that it is called on | | `Folded`
winnow_repeat verify_fold | the same; fails if `op` returns `None` | |
winnow_repeat try_fold | the same; fails if `op` returns an error | |
winnow_repeat repeat_till | `parser` until `terminator` succeeds, then `terminator` | | `Till`
winnow_repeat iterator | `parser`, for each item | |
winnow_repeat fill | `parser`, for each element of the buffer | |
winnow_separated separated | `parser` as often as the range allows, `separator` between two | | `SeparatedBy`
winnow_separated separated_foldl1 | the same, once or more, folded from the left | |
winnow_separated separated_foldr1 | the same, once or more, folded from the right | |
""",
    "Converting the output": """
winnow_core map value default_value void output_into | the parser | the converted output | `Made`
winnow_core parse_to | the parser, if `FromStr` accepts its output | | `Made`
winnow_core take | the parser | the consumed slice | `Taken`
winnow_core with_taken | the parser | the output and the consumed slice | `AndTaken`
winnow_core span | the parser | its range of offsets | `Made`, `AnyPlaces`
winnow_core with_span | the parser | the output and its range of offsets | `Made`, `WithPlaces`
""",
    "Checking the output, or parsing it further": """
winnow_core verify | the parser, if the closure accepts its output | | `Made`
winnow_core verify_map try_map | the same | the closure's output | `Made`
winnow_core flat_map | the parser, then the parser that `map` returns | | `FlatMapped`
winnow_core and_then | the parser, if `inner` succeeds on its output | | `Made`, `ReadsWithin`
""",
    "Errors": """
winnow_comb cut_err | the parser; a backtrack becomes a cut | | the parser's
winnow_comb backtrack_err | the parser; a cut becomes a backtrack | |
winnow_core context | the parser; an error gets the context | | the parser's
winnow_core context_with | the parser; an error gets contexts from a closure | |
winnow_core map_err | the parser; `map` converts an error | | the parser's
winnow_core map_err_kept | the same; `map` must keep the error's kind | | the parser's
winnow_core err_into | the parser; `From` converts an error | | the parser's
winnow_core complete_err | the parser; `Incomplete` becomes a backtrack | | the parser's
""",
    "Error recovery": """
winnow_recovery resume_after | the parser; after an error, `recover` | |
winnow_recovery retry_after | the same, then the parser again | |
""",
    "Operator expressions": """
winnow_expression expression | operands and operators, by precedence | the value of the only tree |
""",
    "Integers as bytes": """
winnow_integers be_u8 be_u16 be_u24 be_u32 be_u64 be_u128 be_i8 be_i16 be_i24 be_i32 be_i64 be_i128 | 1 to 16 bytes, most significant first | the integer | `Integer`
winnow_integers le_u8 le_u16 le_u24 le_u32 le_u64 le_u128 le_i8 le_i16 le_i24 le_i32 le_i64 le_i128 | 1 to 16 bytes, least significant first | the integer | `Integer`
winnow_integers u8 i8 | one byte | | `Integer`
winnow_binary u16 u24 u32 u64 u128 i16 i24 i32 i64 i128 | 2 to 16 bytes, in the given order | the integer | `Integer`
""",
    "Length-prefixed data": """
winnow_binary length_take | a length, then as many tokens | | `Sized`, `Counted`
winnow_binary length_and_then | the same, if `parser` succeeds on these tokens | | `Sized`, `Inside`
winnow_binary length_repeat | a count, then `parser` as often | | `Sized`, `Times`
""",
    "Bits": """
winnow_bits bits | the bytes in which `parser` consumes bits | |
winnow_bits bytes | the rest of a started byte, then `parser` | |
winnow_bits bool | one bit | |
winnow_bits pattern | `count` bits that equal `pattern` | |
winnow_bits take | `count` bits | |
""",
    "Other calls": """
winnow_core by_ref | the parser | | the parser's
winnow_core parse_iter | all input, an item at a time | |
""",
}

# nom's names that are the same here. Those with a dot are functions in nom, and methods here.
SAME = """
alpha0 alpha1 alphanumeric0 alphanumeric1 digit0 digit1 hex_digit0 hex_digit1 oct_digit0 oct_digit1
space0 space1 multispace0 multispace1 line_ending crlf newline tab
alt opt cond peek not fail eof rest rest_len iterator fill
preceded terminated delimited separated_pair none_of one_of take take_until take_while take_till
u8 u16 u24 u32 u64 u128 i8 i16 i24 i32 i64 i128
be_u8 be_u16 be_u24 be_u32 be_u64 be_u128 be_i8 be_i16 be_i24 be_i32 be_i64 be_i128
le_u8 le_u16 le_u24 le_u32 le_u64 le_u128 le_i8 le_i16 le_i24 le_i32 le_i64 le_i128
bits bytes bool
.map .value .verify .flat_map .and_then .map_err .context
""".split()

# nom's other names, and what to write here.
OTHERS = """
all_consuming, finish: `parse`
and, pair, tuple: a tuple
anychar: `any`
char: `one_of`, or the character by value
complete: `.complete_err`
consumed: `.with_taken`
count: `repeat` with `n`
cut: `cut_err`
be_f32, be_f64, le_f32, le_f64: left out
double, float: three [recipes](RECIPES.md)
escaped: `take_escaped`
escaped_transform: `escaped`
fold_many0, fold_many1, fold_many_m_n: `.fold` of a `repeat`
hex_u32: `hex_uint`
i8, i16, i32, i64, i128 (of `character`): `dec_int`
ignore: `.void`
into: `.output_into`, and `.err_into` for the error
is_a, take_while1: `take_while` with `1..`
is_not, take_till1: `take_till` with `1..`
length_count: `length_repeat`
length_data: `length_take`
length_value: `length_and_then`
many0, many1, many_m_n: `repeat`
many0_count, many1_count: `repeat` into a `usize`
many_till: `repeat_till`
map_opt: `.verify_map`
map_parser: `.and_then`
map_res: `.try_map`
not_line_ending: `till_line_ending`
or: `alt`
permutation: left out
recognize: `.take`
satisfy: `one_of` with a `Pred`
separated_list0, separated_list1: `separated`
success: `empty`, and `.value(v)` of it
tag: `literal`, or the text or bytes by value
tag (of `bits`): `pattern` of `winnow::binary::bits`
tag_no_case: `Caseless` around a text or bytes
take_until1: `take_until` with `1..`
take_while_m_n: `take_while` with `m..=n`
u8, u16, u32, u64, u128 (of `character`): `dec_uint`
"""


def others():
    """nom's other names: each group with its module, if it has one, and what to write here."""
    for line in OTHERS.strip().split("\n"):
        names, _, here = line.partition(": ")
        names, _, module = names.partition(" (")
        yield names.split(", "), module.rstrip(")"), here

