//! Documents of values that are TOML 1.0.

/// The name of a toml-test case, and a document for it.
pub const VALUES: &[(&str, &str)] = &[
    (
        "array/array",
        "ints = [1, 2, 3, ]\nfloats = [1.1, 2.1, 3.1]\nstrings = [\"a\", \"b\", \"c\"]\n\
         dates = [\n  1987-07-05T17:45:00Z,\n  1979-05-27T07:32:00Z,\n\
         ]\ncomments = [\n  1,\n  2, # this is ok\n]\n",
    ),
    ("array/array-subtables", "[[arr]]\n[arr.subtab]\nval=1\n\n[[arr]]\n[arr.subtab]\nval=2\n"),
    ("array/bool", "a = [true, false]\n"),
    ("array/empty", "thevoid = [[[[[]]]]]\n"),
    ("array/hetergeneous", "mixed = [[1, 2], [\"a\", \"b\"], [1.1, 2.1]]\n"),
    ("array/mixed-int-array", "arrays-and-ints = [1, [\"Arrays are not integers.\"]]\n"),
    ("array/mixed-int-float", "ints-and-floats = [1, 1.1]\n"),
    ("array/mixed-int-string", "strings-and-ints = [\"hi\", 42]\n"),
    (
        "array/mixed-string-table",
        "contributors = [\n  \"Foo Bar <foo@example.com>\",\n  { name = \"Baz\", email = \"b\
         az@example.com\" },\n]\nmixed = [{k=\"a\"}, \"b\", {k=\"c\"}, 1]\n",
    ),
    ("array/nested", "nest = [[\"a\"], [\"b\"]]\n"),
    ("array/nested-double", "nest = [\n[\n[\"a\"], [1, 2, [3]]\n]\n]\n"),
    ("array/nested-inline-table", "a = [ { b = {} } ]\n"),
    ("array/nospaces", "ints = [1,2,3]\n"),
    (
        "array/open-parent-table",
        "[[parent-table.arr]]\n[[parent-table.arr]]\n[parent-table]\n\
         not-arr = 1\n",
    ),
    (
        "array/string-quote-comma",
        "title = [ \"Client: \\\"XXXX\\\", Job: XXXX\",\n\"Code: XXXX\"]\n",
    ),
    ("array/string-quote-comma-2", "title = [ \" \\\", \",]\n"),
    ("array/string-with-comma", "title = [\n\"Client: XXXX, Job: XXXX\",\n\"Code: XXXX\"\n]\n"),
    (
        "array/string-with-comma-2",
        "title = [\n\"\"\"Client: XXXX,\nJob: XXXX\"\"\",\n\"Code: XXXX\"\n\
         ]\n",
    ),
    (
        "array/strings",
        "string_array = [ \"all\", 'strings', \"\"\"are the same\"\"\", '''type''']\n",
    ),
    ("array/table-array-string-backslash", "foo = [ { bar=\"\\\"{{baz}}\\\"\"} ]\n"),
    (
        "array/trailing-comma",
        "arr-1 = [1,]\narr-2 = [2,3,]\narr-3 = [4,\n]\narr-4 = [\n\
         \t5,\n\t6,\n]\n",
    ),
    ("bool/bool", "t = true\nf = false\n"),
    (
        "comment/after-literal-no-ws",
        "inf=inf#infinity\nnan=nan#not a number\ntrue=true#true\n\
         false=false#false\n",
    ),
    (
        "comment/at-eof",
        "# This is a full-line comment\nkey = \"value\" # This is a comment at the end of a \
         line\n",
    ),
    (
        "comment/at-eof2",
        "# This is a full-line comment\nkey = \"value\" # This is a comment at the end of a \
         line",
    ),
    (
        "comment/everywhere",
        "# Top comment.\n  # Top comment.\n# Top comment.\n\n\
         [group] # Comment\nanswer = 42 # Comment\n# no-extraneous-keys-please = 999\n\
         # In between comment.\nmore = [ # Comment\n  # What about multiple # comments?\n  # \
         Can you handle it?\n  42, 42, # Comments within arrays are fun.\n  # What about mul\
         tiple # comments?\n] # Hopefully not.\n# Make sure the space between the datetime a\
         nd \"#\" is not lexed.\ndt = 1979-05-27T07:32:12-07:00  # c\n\
         d = 1979-05-27 # Comment\n",
    ),
    ("comment/noeol", "# single comment without any eol characters"),
    ("comment/nonascii", "# \u{80} \u{a0} \u{42a} \u{ffff} \u{10000} \u{10ffff}\n"),
    (
        "comment/tricky",
        "[section]#attached comment\n#[notsection]\none = \"11\"#cmt\n\
         two = \"22#\"\nthree = '#'\n\nfour = \"\"\"# no comment\n\
         # nor this\n#also not comment\"\"\"#is_comment\n\nfive = 5.5#66\n\
         six = 6#7\n8 = \"eight\"\n#nine = 99\nten = 10e2#1\n\
         eleven = 1.11e1#23\n\n[\"hash#tag\"]\n\"#!\" = \"hash bang\"\n\
         arr3 = [ \"#\", '#', \"\"\"###\"\"\" ]\narr4 = [ 1,# 9, 9,\n\
         2#,9\n,3#]\n,4]\narr5 = [[[[#[\"#\"],\n[\"#\"]]]]#]\n\
         ]\ntbl1 = { \"#\" = '}#'}#}}\n",
    ),
    ("datetime/datetime", "space = 1987-07-05 17:45:00Z\nlower = 1987-07-05t17:45:00z\n"),
    (
        "datetime/edge",
        "first-offset = 0001-01-01 00:00:00Z\nfirst-local  = 0001-01-01 00:00:00\n\
         first-date   = 0001-01-01\nlast-offset = 9999-12-31 23:59:59Z\n\
         last-local  = 9999-12-31 23:59:59\nlast-date   = 9999-12-31\n",
    ),
    (
        "datetime/leap-year",
        "2000-datetime = 2000-02-29 15:15:15Z\n2024-date = 2024-02-29\n\
         2000-local = 2000-02-29 15:15:15\n",
    ),
    (
        "datetime/local",
        "local = 1987-07-05T17:45:00\nmilli = 1977-12-21T10:32:00.555\n\
         space = 1987-07-05 17:45:00\n",
    ),
    ("datetime/local-date", "bestdayever = 1987-07-05\n"),
    ("datetime/local-time", "besttimeever = 17:45:00\nmilliseconds = 10:32:00.555\n"),
    (
        "datetime/milliseconds",
        "utc1  = 1987-07-05T17:45:56.1234Z\nutc2  = 1987-07-05T17:45:56.6Z\n\
         wita1 = 1987-07-05T17:45:56.1234+08:00\nwita2 = 1987-07-05T17:45:56.6+08:00\n",
    ),
    (
        "datetime/timezone",
        "utc  = 1987-07-05T17:45:56Z\npdt  = 1987-07-05T17:45:56-05:00\n\
         nzst = 1987-07-05T17:45:56+12:00\nnzdt = 1987-07-05T17:45:56+13:00\n",
    ),
    (
        "float/exponent",
        "lower = 3e2\nupper = 3E2\nneg = 3e-2\npos = 3E+2\nzero = 3e0\n\
         pointlower = 3.1e2\npointupper = 3.1E2\nminustenth = -1E-1\n",
    ),
    ("float/float", "pi = 3.14\npospi = +3.14\nnegpi = -3.14\nzero-intpart = 0.123\n"),
    (
        "float/inf-and-nan",
        "nan = nan\nnan_neg = -nan\nnan_plus = +nan\ninfinity = inf\n\
         infinity_neg = -inf\ninfinity_plus = +inf\n",
    ),
    ("float/long", "longpi = 3.141592653589793\nneglongpi = -3.141592653589793\n"),
    (
        "float/max-int",
        "max_float = 9_007_199_254_740_991.0\nmin_float = -9_007_199_254_740_991.0\n",
    ),
    ("float/underscore", "before = 3_141.5927\nafter = 3141.592_7\nexponent = 3e1_4\n"),
    (
        "float/zero",
        "zero = 0.0\nsigned-pos = +0.0\nsigned-neg = -0.0\nexponent = 0e0\n\
         exponent-two-0 = 0e00\nexponent-signed-pos = +0e0\nexponent-signed-neg = -0e0\n",
    ),
    (
        "integer/float64-max",
        "max_int =  9_007_199_254_740_991\nmin_int = -9_007_199_254_740_991\n",
    ),
    ("integer/integer", "answer = 42\nposanswer = +42\nneganswer = -42\nzero = 0\n"),
    (
        "integer/literals",
        "bin1 = 0b11010110\nbin2 = 0b1_0_1\noct1 = 0o01234567\n\
         oct2 = 0o755\noct3 = 0o7_6_5\nhex1 = 0xDEADBEEF\nhex2 = 0xdeadbeef\n\
         hex3 = 0xdead_beef\nhex4 = 0x00987\n",
    ),
    ("integer/long", "int64-max = 9223372036854775807\nint64-max-neg = -9223372036854775808\n"),
    ("integer/underscore", "kilo = 1_000\nx = 1_1_1_1\n"),
    (
        "integer/zero",
        "d1 = 0\nd2 = +0\nd3 = -0\nh1 = 0x0\nh2 = 0x00\nh3 = 0x00000\n\
         o1 = 0o0\na2 = 0o00\nb1 = 0b0\nb2 = 0b00\n",
    ),
    ("string/double-quote-escape", "test = \"\\\"one\\\"\"\n"),
    ("string/empty", "answer = \"\"\nmulti = \"\"\"\"\"\"\nliteral = ''''''\n"),
    ("string/ends-in-whitespace-escape", "beee = \"\"\"\nheeee\ngeeee\\  \n\n\n      \"\"\"\n"),
    (
        "string/escape-tricky",
        "end_esc = \"String does not end here\\\" but ends here\\\\\"\n\
         lit_end_esc = 'String ends here\\'\nmultiline_unicode = \"\"\"\n\
         \\u00a0\"\"\"\nmultiline_not_unicode = \"\"\"\n\\\\u0041\"\"\"\n\
         lit_multiline_not_unicode = '''\n\\u007f'''\n",
    ),
    ("string/escaped-escape", "answer = \"\\\\x64\"\n"),
    (
        "string/escapes",
        "backspace = \"|\\b.\"\ntab = \"|\\t.\"\nnewline = \"|\\n.\"\n\
         formfeed = \"|\\f.\"\ncarriage = \"|\\r.\"\nquote = \"|\\\".\"\n\
         backslash = \"|\\\\.\"\ndelete = \"|\\u007F.\"\nunitseparator = \"|\\u001F.\"\n\
         notunicode1 = \"|\\\\u.\"\n",
    ),
    ("string/multibyte", "a = \"\u{3b4} \u{1d11e}\"\nb = '''\u{65e5}\n\u{672c}'''\n"),
    ("string/multibyte-escape", "a = \"\\u03b4 \\U000003B4 \\U0001D11E\"\n"),
    (
        "string/multiline",
        "# NOTE: this file includes some literal tab characters.\n\
         equivalent_one = \"The quick brown fox.\"\nequivalent_two = \"\"\"\n\
         The quick brown \\\n\n\n  fox.\"\"\"\nwhitespace-after-bs = \"\"\"\\\n   The quick \
         \\\n   brown fox.\\   \n   \"\"\"\nno-space = \"\"\"a\\\n    b\"\"\"\n\
         escape-bs-1 = \"\"\"a \\\\\nb\"\"\"\n",
    ),
    (
        "string/multiline-empty",
        "empty-1 = \"\"\"\"\"\"\nempty-2 = \"\"\"\n\"\"\"\nempty-3 = \"\"\"\\\n    \"\"\"\n\
         empty-4 = \"\"\"\\\n   \\\n   \"\"\"\n",
    ),
    ("string/multiline-escaped-crlf", "0=\"\"\"\\\r\n\"\"\"\r\n"),
    (
        "string/multiline-quotes",
        "lit_one = ''''one quote''''\nlit_two = '''''two quotes'''''\n\
         one = \"\"\"\"one quote\"\"\"\"\ntwo = \"\"\"\"\"two quotes\"\"\"\"\"\n\
         escaped = \"\"\"lol\\\"\"\"\"\"\"\n",
    ),
    (
        "string/nl",
        "nl_mid = \"val\\nue\"\nnl_end = \"\"\"value\\n\"\"\"\n\
         lit_nl_end = '''value\\n'''\n",
    ),
    (
        "string/quoted-unicode",
        "escaped_string = \"\\u0000 \\u0008 \\u000c \\U00000041 \\u007f \\u0080 \\u00ff \\ud\
         7ff \\ue000 \\uffff \\U00010000 \\U0010ffff\"\nbasic_string = \"~ \u{80} \u{ff} \
         \u{d7ff} \u{e000} \u{ffff} \u{10000} \u{10ffff}\"\n",
    ),
    (
        "string/raw",
        "backspace = 'This string has a \\b backspace character.'\n\
         slash = 'This string has a \\/ slash character.'\nunescaped = 'This string has an \
         \\a'\n",
    ),
    ("string/raw-empty", "empty = ''\n"),
    (
        "string/raw-multiline",
        "oneline = '''This string has a ' quote character.'''\n\
         firstnl = '''\nThis string has a ' quote character.'''\n\
         multiline = '''\nThis string\nhas ' a quote character\n\
         and more than\none newline\nin it.'''\nmultiline_with_tab = '''First line\n\
         \tFollowed by a tab'''\n",
    ),
    ("string/simple", "answer = \"You are not drinking enough whisky.\"\n"),
    ("string/start-mb", "s1 = \"\u{fffd}\"\ns2 = '\u{1f600}'\n"),
    (
        "string/unicode-escape",
        "delta-1 = \"\\u03B4\"\ndelta-2 = \"\\U000003B4\"\nhexesc = \"\\u00e9\"\n",
    ),
    ("string/unicode-literal", "answer = \"\u{3b4}\"\n"),
    (
        "string/with-pound",
        "pound = \"We see no # comments here.\"\npoundcomment = \"But there are # some comme\
         nts here.\" # Did I # mess you up?\n",
    ),
];
