/* Tables of TOML documents: included by rows.c. The expected values are those of Python's tomllib, and
 * of the examples in the standard. */

/* Documents and their contents: tables in braces, arrays in brackets, floats after `~`, dates and times
 * as numbers. */
static const struct {
    const char *text, *said;
} documents_of_toml[] = {
    {"", "{}"},
    {"# nothing\n\n", "{}"},
    {"a = 1", "{a:1}"},
    {"\"a b\" = 'c:\\d'\r\n\"\" = \"\\u00e9\\n\"\n", "{a b:\"c:\\d\" :\"\xc3\xa9\n\"}"},
    {"n = -9223372036854775808\nh = 0xff\no = 0o17\nb = 0b11\nu = 1_000\n",
     "{n:-9223372036854775808 h:255 o:15 b:3 u:1000}"},
    {"f = 1_0.5e+3\ni = -inf\nn = nan\n", "{f:~10.5e+3 i:~-inf n:~nan}"},
    {"t = true\nf = false", "{t:true f:false}"},
    {"d = 1979-05-27T07:32:00-08:00\n", "{d:1979-5-27 7:32:0. -480}"},
    {"d = 1979-05-27 07:32:00.999Z\n", "{d:1979-5-27 7:32:0.999 0}"},
    {"d = 1979-05-27T00:32:00.50\n", "{d:1979-5-27 0:32:0.50}"},
    {"d = 1979-05-27\n", "{d:1979-5-27}"},
    {"d = 23:59:60.1\n", "{d:23:59:60.1}"},
    {"a = [1, [2, 'x'], {b = 3, c.d = 4}, []]", "{a:[1 [2 \"x\"] {b:3 c:{d:4}} []]}"},
    {"[a.b]\nc = 1\n[d]\n[a]\ne = 2\n", "{a:{b:{c:1} e:2} d:{}}"},
    {"[[p]]\nn = 1\n[p.q]\nx = 2\n[[p]]\nn = 3\n[[p.r]]\n[[p.r]]\n",
     "{p:[{n:1 q:{x:2}} {n:3 r:[{} {}]}]}"},
    {"a.b.c = 1\na.d = 2\n", "{a:{b:{c:1} d:2}}"},
};

/* The offset of the error, where the innermost string or bracket starts that is not closed, or the same
 * offset, and the error. The offsets were found by hand, and those of scripts/beside toml/errors agree. */
static const struct {
    const char *text;
    size_t place, start, error;
} refused_of_toml[] = {
    {"a = 1\nb 2", 8, 8, PERGIDAU_TOML_ERROR_EQUALS_SIGN},
    {"= 1", 0, 0, PERGIDAU_TOML_ERROR_KEY_OR_TABLE},
    {"a.= 1", 2, 2, PERGIDAU_TOML_ERROR_KEY},
    {"a = {1.5, 2}", 8, 4, PERGIDAU_TOML_ERROR_EQUALS_SIGN},
    {"a = {,}", 5, 4, PERGIDAU_TOML_ERROR_KEY_OR_BRACE},
    {"a = ", 4, 4, PERGIDAU_TOML_ERROR_VALUE},
    {"[]", 1, 1, PERGIDAU_TOML_ERROR_TABLE_NAME},
    {"[a", 2, 2, PERGIDAU_TOML_ERROR_CLOSING_BRACKET},
    {"[[a]", 4, 4, PERGIDAU_TOML_ERROR_SECOND_BRACKET},
    {"a = [1,,", 7, 4, PERGIDAU_TOML_ERROR_VALUE_OR_BRACKET},
    {"a = [1\n2", 7, 4, PERGIDAU_TOML_ERROR_COMMA_OR_BRACKET},
    {"a = {b = 1\n", 10, 4, PERGIDAU_TOML_ERROR_COMMA_OR_BRACE},
    {"a = 1 b = 2", 6, 6, PERGIDAU_TOML_ERROR_LINE_END},
    {"a = 1\rb", 6, 6, PERGIDAU_TOML_ERROR_LINE_FEED},
    {"# \001", 2, 2, PERGIDAU_TOML_ERROR_COMMENT},
    {"\"a\n", 2, 0, PERGIDAU_TOML_ERROR_BASIC_STRING},
    {"a = ['b", 7, 5, PERGIDAU_TOML_ERROR_LITERAL_STRING},
    {"a = \"\"\"\n", 8, 4, PERGIDAU_TOML_ERROR_LONG_BASIC_STRING},
    {"a = '''''", 9, 4, PERGIDAU_TOML_ERROR_LONG_LITERAL_STRING},
    {"a = \"\\q", 6, 4, PERGIDAU_TOML_ERROR_ESCAPE},
    {"a = \"\"\"\\q", 8, 4, PERGIDAU_TOML_ERROR_LONG_ESCAPE},
    {"a = \"\"\"\\ q", 9, 4, PERGIDAU_TOML_ERROR_ESCAPED_LINE_END},
    {"a = \"\\u00g", 9, 4, PERGIDAU_TOML_ERROR_HEX_DIGIT},
    {"a = \"\\ud8", 8, 4, PERGIDAU_TOML_ERROR_SCALAR_DIGIT},
    {"a = tru", 7, 7, PERGIDAU_TOML_ERROR_WORD},
    {"a = +", 5, 5, PERGIDAU_TOML_ERROR_DIGIT_OR_WORD},
    {"a = 1.", 6, 6, PERGIDAU_TOML_ERROR_DIGIT},
    {"a = 1e", 6, 6, PERGIDAU_TOML_ERROR_DIGIT_OR_SIGN},
    {"a = 0o8", 6, 6, PERGIDAU_TOML_ERROR_OCTAL_DIGIT},
    {"a = 0b2", 6, 6, PERGIDAU_TOML_ERROR_BINARY_DIGIT},
    {"a = 9223372036854775808", 23, 23, PERGIDAU_TOML_ERROR_INTEGER_TOO_LARGE},
    {"a = 012", 7, 7, PERGIDAU_TOML_ERROR_YEAR_OR_HOUR},
    {"a = 1979-13-01", 10, 10, PERGIDAU_TOML_ERROR_MONTH},
    {"a = 1979-02-30", 12, 12, PERGIDAU_TOML_ERROR_DAY},
    {"a = 1979-02-01T24", 16, 16, PERGIDAU_TOML_ERROR_HOUR},
    {"a = 07:60", 7, 7, PERGIDAU_TOML_ERROR_MINUTE},
    {"a = 07:00:61", 11, 11, PERGIDAU_TOML_ERROR_SECOND},
    {"a = 1979-02/", 11, 11, PERGIDAU_TOML_ERROR_HYPHEN},
    {"a = 1979-02-01T07.", 17, 17, PERGIDAU_TOML_ERROR_COLON},
    {"\xef\xbb\xbf[a]", 0, 0, PERGIDAU_TOML_ERROR_BYTE_ORDER_MARK},
    {"a = 1\na = 2\nb 3", 14, 14, PERGIDAU_TOML_ERROR_EQUALS_SIGN},
    {"a = 1\na = 2\n", 6, 6, PERGIDAU_TOML_ERROR_DEFINED},
    {"a = 1\na.b = 2\n", 6, 6, PERGIDAU_TOML_ERROR_NOT_A_TABLE},
    {"a = {}\n[a.b]\n", 7, 7, PERGIDAU_TOML_ERROR_CLOSED},
    {"[a]\n[[a]]\n", 4, 4, PERGIDAU_TOML_ERROR_NOT_AN_ARRAY_OF_TABLES},
};

enum { MOST_NODES_OF_TOML = 32, MOST_TEXT_OF_TOML = 64 };

struct toml {
    struct pergidau_toml_result found;
    uint8_t text[MOST_TEXT_OF_TOML];
    struct pergidau_toml_node nodes[MOST_NODES_OF_TOML];
};

static char *say_text(char *into, const struct toml *it, struct pergidau_span place)
{
    return into + sprintf(into, "%.*s", (int)place.length, (const char *)it->text + place.offset);
}

static char *say_value(char *into, const struct toml *it, const struct pergidau_toml_value *value)
{
    size_t kind = value->kind;
    bool dated = kind == PERGIDAU_TOML_OFFSET_DATE_TIME || kind == PERGIDAU_TOML_LOCAL_DATE_TIME;
    switch (kind) {
    case PERGIDAU_TOML_STRING:
        *into++ = '"';
        into = say_text(into, it, value->text);
        *into++ = '"';
        return into;
    case PERGIDAU_TOML_INTEGER:
        return into + sprintf(into, "%lld", (long long)value->integer);
    case PERGIDAU_TOML_FLOAT:
        *into++ = '~';
        return say_text(into, it, value->text);
    case PERGIDAU_TOML_BOOLEAN:
        return into + sprintf(into, "%s", value->integer ? "true" : "false");
    default:
        break;
    }
    if (dated || kind == PERGIDAU_TOML_LOCAL_DATE) {
        into += sprintf(into, "%d-%d-%d", value->year, value->month, value->day);
        *into = ' ';
        into += dated;
    }
    if (dated || kind == PERGIDAU_TOML_LOCAL_TIME) {
        into += sprintf(into, "%d:%d:%d", value->hour, value->minute, value->second);
        if (value->text.length > 0 || kind == PERGIDAU_TOML_OFFSET_DATE_TIME) {
            *into++ = '.';
            into = say_text(into, it, value->text);
        }
    }
    return kind == PERGIDAU_TOML_OFFSET_DATE_TIME ? into + sprintf(into, " %d", value->offset) : into;
}

/* Formats a document with a loop: from each node to its first child, otherwise to its next sibling,
 * otherwise to the next sibling of an ancestor. */
static void say_document(char *into, const struct toml *it)
{
    size_t number = 0;
    for (;;) {
        const struct pergidau_toml_node *node = &it->nodes[number];
        bool table = node->value.kind == PERGIDAU_TOML_TABLE;
        bool array = node->value.kind == PERGIDAU_TOML_ARRAY;
        if (number > 0 && !node->is_element) {
            into = say_text(into, it, node->name);
            *into++ = ':';
        }
        if (table || array) {
            *into++ = table ? '{' : '[';
        } else {
            into = say_value(into, it, &node->value);
        }
        if (node->first > 0) {
            number = node->first;
            continue;
        }
        if (table || array) {
            *into++ = table ? '}' : ']';
        }
        for (; number > 0 && it->nodes[number].next == 0;) {
            number = it->nodes[number].parent;
            *into++ = it->nodes[number].value.kind == PERGIDAU_TOML_TABLE ? '}' : ']';
        }
        if (number == 0) {
            *into = 0;
            return;
        }
        number = it->nodes[number].next;
        *into++ = ' ';
    }
}

static enum pergidau_code read_toml(const char *text, size_t max_depth, size_t room, size_t count,
                                    struct toml *it)
{
    size_t length = strlen(text);
    uint8_t *bytes = copied(text, length);
    memset(it, 0x5a, sizeof *it);
    enum pergidau_code code = pergidau_toml_document(bytes, length, max_depth, it->text, room, it->nodes,
                                                     count, &it->found);
    free(bytes);
    return code;
}

static void test_toml_buffers(const char *text, const struct toml *whole)
{
    size_t nodes = whole->found.nodes, bytes = whole->found.text;
    struct toml it;
    for (int few = 0; few < 2; few++) {
        if (few && bytes == 0) {
            continue;
        }
        enum pergidau_code code =
            read_toml(text, 8, few ? bytes - 1 : bytes, few ? nodes : nodes - 1, &it);
        same("too small", text, code, PERGIDAU_BUFFER_TOO_SMALL);
        same("required nodes", text, (long long)it.found.nodes, (long long)nodes);
        same("required bytes", text, (long long)it.found.text, (long long)bytes);
        same("the buffers", text, it.text[0] == 0x5a && it.nodes[0].parent == it.nodes[0].first, 1);
    }
    same("just enough", text, read_toml(text, 8, bytes, nodes, &it), PERGIDAU_DONE);
    same("the byte after it", text, bytes == MOST_TEXT_OF_TOML || it.text[bytes] == 0x5a, 1);
}

static void test_toml(void)
{
    struct toml it;
    for (size_t i = 0; i < sizeof documents_of_toml / sizeof *documents_of_toml; i++) {
        const char *text = documents_of_toml[i].text;
        char said[400] = "";
        enum pergidau_code code = read_toml(text, 8, MOST_TEXT_OF_TOML, MOST_NODES_OF_TOML, &it);
        same("a document", text, code, PERGIDAU_DONE);
        if (code == PERGIDAU_DONE) {
            say_document(said, &it);
            if (strcmp(said, documents_of_toml[i].said) != 0) {
                printf("%s: found %s\n", text, said);
                wrong = 1;
            }
            same("the error offset", text, it.found.error_offset == 0 && it.found.error == 0, 1);
            test_toml_buffers(text, &it);
        }
    }
    for (size_t i = 0; i < sizeof refused_of_toml / sizeof *refused_of_toml; i++) {
        const char *text = refused_of_toml[i].text;
        same("invalid document", text, read_toml(text, 8, 0, 0, &it), PERGIDAU_INVALID);
        same("the error offset", text, (long long)it.found.error_offset,
             (long long)refused_of_toml[i].place);
        same("the start", text, (long long)it.found.unclosed_offset,
             (long long)refused_of_toml[i].start);
        same("the error", text, (long long)it.found.error, (long long)refused_of_toml[i].error);
        same("the nodes", text, it.found.nodes == 0 && it.found.text == 0, 1);
    }
    same("invalid UTF-8", "a = '\\xe9'", read_toml("a = '\xe9'", 8, 0, 0, &it), PERGIDAU_INVALID_UTF8);
    same("the error offset", "a = '\\xe9'", (long long)it.found.error_offset, 5);
    same("the depth limit", "[[]]", read_toml("a = [[]]", 1, 64, 8, &it), PERGIDAU_INVALID);
    same("the error", "[[]]", it.found.error, PERGIDAU_TOML_ERROR_TOO_DEEP);
    same("the error offset", "[[]]", (long long)it.found.error_offset, 5);
    same("the depth limit", "[[]]", read_toml("a = [[]]", 2, 64, 8, &it), PERGIDAU_DONE);
    same("the depth limit", "[a]", read_toml("a = 1\n[b]\nc.d = 2", 2, 64, 8, &it), PERGIDAU_DONE);
    same("the depth limit", "[a]", read_toml("a = 1\n[b]\nc.d = 2", 1, 64, 8, &it), PERGIDAU_INVALID);
    same("the error", "[a]", it.found.error, PERGIDAU_TOML_ERROR_LINE_TOO_DEEP);
    same("the error offset", "[a]", (long long)it.found.error_offset, 10);
    same("the depth limit", "512", read_toml("a = 1", 512, 64, 8, &it), PERGIDAU_DONE);
    same("the depth limit", "513", read_toml("a = 1", 513, 64, 8, &it), PERGIDAU_MAX_DEPTH_TOO_LARGE);
    same("the nodes", "513", it.found.nodes == 0 && it.found.text == 0, 1);
    const uint8_t *a = (const uint8_t *)"a=1";
    same("null", "bytes", pergidau_toml_document(NULL, 3, 1, NULL, 0, NULL, 0, &it.found),
         PERGIDAU_NULL);
    same("null", "text", pergidau_toml_document(a, 3, 1, NULL, 1, NULL, 0, &it.found), PERGIDAU_NULL);
    same("null", "nodes", pergidau_toml_document(a, 3, 1, NULL, 0, NULL, 1, &it.found), PERGIDAU_NULL);
    same("null", "out", pergidau_toml_document(a, 3, 1, NULL, 0, NULL, 0, NULL), PERGIDAU_NULL);
    same("too long", "nodes",
         pergidau_toml_document(a, 3, 1, it.text, 1, it.nodes, PTRDIFF_MAX / sizeof *it.nodes + 1,
                                &it.found),
         PERGIDAU_TOO_LONG);
    same("nothing", "toml", pergidau_toml_document(NULL, 0, 1, NULL, 0, it.nodes, 1, &it.found),
         PERGIDAU_DONE);
    same("one node", "toml", it.found.nodes == 1 && it.nodes[0].value.kind == PERGIDAU_TOML_TABLE, 1);
}
