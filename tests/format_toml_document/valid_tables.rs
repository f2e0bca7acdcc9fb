//! Documents of keys and tables that are TOML 1.0.

/// The name of a toml-test case, and a document for it.
pub const TABLES: &[(&str, &str)] = &[
    ("empty-crlf", "\r\n"),
    ("empty-lf", "\n"),
    ("empty-nothing", ""),
    ("empty-space", " "),
    ("empty-tab", "\t"),
    (
        "example",
        "best-day-ever = 1987-07-05T17:45:00Z\n\n[numtheory]\n\
         boring = false\nperfection = [6, 28, 496]\n",
    ),
    ("implicit-and-explicit-after", "[a.b.c]\nanswer = 42\n\n[a]\nbetter = 43\n"),
    ("implicit-and-explicit-before", "[a]\nbetter = 43\n\n[a.b.c]\nanswer = 42\n"),
    ("implicit-groups", "[a.b.c]\nanswer = 42\n"),
    (
        "inline-table/array-01",
        "people = [{first_name = \"Bruce\", last_name = \"Springsteen\"},\n          {first_\
         name = \"Eric\", last_name = \"Clapton\"}]\n",
    ),
    ("inline-table/array-02", "a = [\n{b = 1}]\n"),
    ("inline-table/array-03", "b = { x = 1, y = { a = 2, \"b.1\" = 4.0 }, z = [{ a = 3 }] }\n"),
    ("inline-table/bool", "a = {a = true, b = false}\n"),
    (
        "inline-table/empty",
        "empty1 = {}\nempty2 = { }\nempty_in_array = [ { not_empty = 1 }, {} ]\n\
         nested_empty = { \"empty\" = {} }\nwith_cmt = { }#nothing here\n",
    ),
    (
        "inline-table/end-in-bool",
        "black = { python=\">3.6\", version=\">=18.9b0\", allow_prereleases=true }\n",
    ),
    (
        "inline-table/inline-table",
        "name       = { first = \"Tom\", last = \"Preston-Werner\" }\n\
         point      = { x = 1, y = 2 }\nsimple     = { a = 1 }\n\
         str-key    = { \"a\" = 1 }\ntable-array = [{ \"a\" = 1 }, { \"b\" = 2 }]\n",
    ),
    ("inline-table/key-dotted-01", "a = {   a.b  =  1   }\n"),
    ("inline-table/key-dotted-02", "many.dots.here.dot.dot.dot = {a.b.c = 1, a.b.d = 2}\n"),
    ("inline-table/key-dotted-03", "[tbl]\na.b.c = {d.e = 1}\n[tbl.x]\na.b.c = {d.e = 1}\n"),
    (
        "inline-table/key-dotted-04",
        "[[arr]]\n\"t\" = {a.b = 1}\nT = {a.b = 1}\n[[arr]]\n\
         \"t\" = {a.b = 2}\nT = {a.b = 2}\n",
    ),
    (
        "inline-table/key-dotted-05",
        "arr-1 = [{a.b = 1}]\narr-2 = [\"str\", {a.b = 1}]\narr-4 = [\"str\", {a.b = 1, a.c \
         = 2}, \"x\"]\n",
    ),
    (
        "inline-table/multiline",
        "tbl_multiline = { a = 1, b = \"\"\"\nmultiline\n\"\"\", c = \"\"\"and yet\n\
         another line\"\"\", d = 4 }\n",
    ),
    (
        "inline-table/nest",
        "tbl_tbl_empty = { tbl_0 = {} }\ntbl_tbl_val = { tbl_1 = { one = 1 } }\n\
         tbl_arr_tbl = { arr_tbl = [ { one = 1 } ] }\narr_arr_tbl_val = [ [ { one = 1 } ] ]\
         \n",
    ),
    (
        "inline-table/spaces",
        "clap-1 = { version = \"4\"  , features = [\"derive\", \"cargo\"] }\n\
         clap-2 = { version = \"4\"\t \t,\tfeatures = [   \"derive\" \t ,  \t \"cargo\"   ]   \
         }\n",
    ),
    (
        "key/alphanum",
        "alpha = \"a\"\n123 = \"num\"\n000111 = \"leading\"\n\
         10e3 = \"false float\"\none1two2 = \"mixed\"\nwith-dash = \"dashed\"\n\
         under_score = \"___\"\n34-11 = 23\n[2018_10]\n001 = 1\n\
         [a-a-a]\n_ = false\n",
    ),
    (
        "key/case-sensitive",
        "sectioN = \"NN\"\n[section]\nname = \"lower\"\nNAME = \"upper\"\n\
         Name = \"capitalized\"\n[Section]\nname = \"different section!!\"\n",
    ),
    (
        "key/dotted-01",
        "name.first = \"Arthur\"\n\"name\".'last' = \"Dent\"\n\
         many.dots.here.dot.dot.dot = 42\n",
    ),
    ("key/dotted-02", "count.a = 1\ncount.b = 2\ncount.c = 3\n"),
    (
        "key/dotted-03",
        "top.key = 1\n[tbl]\na.b.c = 42.666\n[a.few.dots]\npolka.dot = \"again?\"\n\
         polka.dance-with = \"Dot\"\n",
    ),
    ("key/dotted-04", "[[arr]]\na.b.c = 1\na.b.d = 2\n[[arr]]\na.b.c = 3\n"),
    (
        "key/dotted-empty",
        "''.x = \"empty.x\"\nx.\"\" = \"x.empty\"\n[a]\n\"\".'' = \"empty.empty\"\n",
    ),
    ("key/empty-01", "\"\" = \"blank\"\n"),
    ("key/empty-02", "'' = 1\n"),
    ("key/empty-03", "''=0\n[a.'']\nb = 1\n"),
    ("key/equals-nospace", "answer=42\n"),
    (
        "key/escapes",
        "\"\\n\" = \"newline\"\n\"\\b\" = \"bell\"\n\"\\u00c0\" = \"latin capital letter A w\
         ith grave\"\n\"\\\"\" = \"just a quote\"\n[\"backsp\\b\\b\"]\n\
         [\"\\\"quoted\\\"\"]\nquote = true\n[\"a.b\".\"\\u00c0\"]\n",
    ),
    ("key/like-date", "2001-02-03 = 1\n\"2001-02-04\" = 2\n'2001-02-05' = 3\n"),
    ("key/numeric-01", "1 = 1\n"),
    ("key/numeric-02", "1.2 = 3\n"),
    ("key/numeric-03", "01 = 1\n1-2 = 4\n"),
    ("key/numeric-04", "1e1 = 1\n-1 = 2\n"),
    ("key/numeric-dotted", "1.2 = 1\n1.3 = 2\n"),
    (
        "key/quoted-dots",
        "plain = 1\n\"with.dot\" = 2\n[plain_table]\n\"with.dot\" = 4\n\
         [table.withdot]\nplain = 5\n\"key.with.dots\" = 6\n",
    ),
    (
        "key/quoted-unicode",
        "\"\\u0000\" = \"null\"\n'\\u0000' = \"different key\"\n\
         \"\\u0008 \\u000c \\U00000041 \\u007f \\u0080\" = \"escaped key\"\n\
         \"~ \u{80} \u{ff} \u{d7ff} \u{e000} \u{ffff} \u{10000} \u{10ffff}\" = \"basic key\"\
         \n",
    ),
    ("key/space", "\"a b\" = 1\n\" c d \" = 2\n[ \" tbl \" ]\n\"\\ttab\\ttab\\t\" = \"tab\"\n"),
    ("key/special-chars", "\"=~!@$^&*()_+-`1234567890[]|/?><.,;:'=\" = 1\n"),
    (
        "key/special-word",
        "false = false\ntrue = 1\ninf = 100000000\nnan = \"ceci n'est pas un nombre\"\n",
    ),
    ("key/start", "tab = 1\n\tx = 2\n  y = 3\n-key = 1\n_key = 2\n1key = 3\n--key = 4\n"),
    ("key/zero", "0=0\n"),
    (
        "multibyte",
        "# Tests multibyte characters: \u{65e5}\u{672c}\n\"\u{540d}\" = \"\u{5024} \u{1f600}\
         \"\n['\u{444}']\na = '\u{436}'\n",
    ),
    ("newline-crlf", "os = \"DOS\"\r\nnewline = \"crlf\"\r\n"),
    ("newline-lf", "os = \"unix\"\nnewline = \"lf\"\n"),
    (
        "spec-1.0.0/array-0",
        "integers = [ 1, 2, 3 ]\ncolors = [ \"red\", \"yellow\", \"green\" ]\n\
         nested_mixed_array = [ [ 1, 2 ], [\"a\", \"b\", \"c\"] ]\n\
         string_array = [ \"all\", 'strings', \"\"\"are the same\"\"\", '''type''' ]\n\
         numbers = [ 0.1, 0.2, 0.5, 1, 2, 5 ]\n",
    ),
    (
        "spec-1.0.0/array-of-tables-1",
        "[[fruits]]\nname = \"apple\"\n[fruits.physical]\ncolor = \"red\"\n\
         [[fruits.varieties]]\nname = \"red delicious\"\n[[fruits.varieties]]\n\
         name = \"granny smith\"\n[[fruits]]\nname = \"banana\"\n\
         [[fruits.varieties]]\nname = \"plantain\"\n",
    ),
    (
        "spec-1.0.0/local-date-time-0",
        "ldt1 = 1979-05-27T07:32:00\nldt2 = 1979-05-27T00:32:00.999999\n",
    ),
    (
        "spec-1.0.0/offset-date-time-0",
        "odt1 = 1979-05-27T07:32:00Z\nodt2 = 1979-05-27T00:32:00-07:00\n\
         odt3 = 1979-05-27T00:32:00.999999-07:00\nodt4 = 1979-05-27 07:32:00Z\n",
    ),
    (
        "spec-1.0.0/string-4",
        "str4 = \"\"\"Here are two quotation marks: \"\". Simple enough.\"\"\"\n\
         str5 = \"\"\"Here are three quotation marks: \"\"\\\".\"\"\"\n\
         str7 = \"\"\"\"This,\" she said, \"is just a pointless statement.\"\"\"\"\n",
    ),
    (
        "spec-1.0.0/string-7",
        "quot15 = '''Here are fifteen quotation marks: \"\"\"\"\"\"\"\"\"\"\"\"\"\"\"'''\n\
         apos15 = \"Here are fifteen apostrophes: '''''''''''''''\"\n\
         str = ''''That,' she said, 'is still pointless.''''\n",
    ),
    (
        "spec-1.0.0/table-7",
        "[fruit]\napple.color = \"red\"\napple.taste.sweet = true\n\
         [fruit.orange.texture]\nsmooth = true\n",
    ),
    ("table/array-empty", "[[a]]\n[[b]]\n[[b]]\n"),
    ("table/array-implicit", "[[albums.songs]]\nname = \"Glory Days\"\n"),
    ("table/array-implicit-and-explicit-after", "[[a.b]]\nx = 1\n\n[a]\ny = 2\n"),
    (
        "table/array-many",
        "[[people]]\nfirst_name = \"Bruce\"\n\n[[people]]\nfirst_name = \"Eric\"\n\
         \n[[people]]\nfirst_name = \"Bob\"\n",
    ),
    (
        "table/array-nest",
        "[[albums]]\nname = \"Born to Run\"\n\n  [[albums.songs]]\n  name = \"Jungleland\"\n\
         \n[[albums]]\nname = \"Born in the USA\"\n\n  [[albums.songs]]\n  name = \"Glory Da\
         ys\"\n",
    ),
    ("table/array-one", "[[people]]\nfirst_name = \"Bruce\"\n"),
    (
        "table/array-table-array",
        "[[a]]\n    [[a.b]]\n        [a.b.c]\n            d = \"val0\"\n    [[a.b]]\n        \
         [a.b.c]\n            d = \"val1\"\n",
    ),
    (
        "table/array-within-dotted",
        "[fruit]\napple.color = \"red\"\n\n[[fruit.apple.seeds]]\n\
         size = 2\n",
    ),
    ("table/empty", "[a]\n"),
    ("table/empty-name", "['']\nx = 1\n\n['a']\n[a.'']\n"),
    ("table/keyword", "[true]\n[false]\n[inf]\n[nan]\n"),
    ("table/keyword-with-values", "[true]\na = 1\n[nan]\nb = 2\n"),
    (
        "table/names",
        "[a.b.c]\n[a.\"b.c\"]\n[a.'d.e']\n[a.' x ']\n[ d.e.f ]\n\
         [ g . h . i ]\n[ j . \"\u{29e}\" . 'l' ]\n[x.1.2]\n",
    ),
    (
        "table/names-with-values",
        "[a.b.c]\nk = 1\n[a.\"b.c\"]\nk = 2\n[ d.e.f ]\nk = 3\n\
         [ g . h . i ]\nk = 4\n",
    ),
    ("table/no-eol", "[table]"),
    ("table/sub", "[a]\nkey = 1\n\n[a.extend]\nkey = 2\n\n# after\n[a.extend.more]\nkey = 3\n"),
    ("table/sub-empty", "[a]\n[a.b]\n"),
    ("table/whitespace", "[\"valid key\"]\n"),
    ("table/with-literal-string", "['a']\n[a.'\"b\"']\n[a.'\"b\"'.c]\nanswer = 42 \n"),
    ("table/with-pound", "[\"key#group\"]\nanswer = 42\n"),
    ("table/with-single-quotes", "['a']\n[a.'b']\n[a.'b'.c]\nanswer = 42 \n"),
    (
        "table/without-super",
        "# [x] you\n# [x.y] don't\n# [x.y.z] need these\n[x.y.z.w] # for this to work\n\
         [x] # defining a super-table afterward is ok\n",
    ),
    ("table/without-super-with-values", "[x.y.z.w]\na = 1\nb = 2\n[x]\nc = 3\nd = 4\n"),
];
