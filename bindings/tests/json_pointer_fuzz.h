/* JSON pointers into random texts, and lookups among their nodes: included by fuzz.c, after `json_lookup_fuzz.h`. Values are found among the nodes of the text, by
 * names that are decoded here. */

/* Writes the reference token of a name, and returns its length. */
static size_t put_token(const uint8_t *name, size_t length, uint8_t *out)
{
    size_t size = 0;
    for (size_t i = 0; i < length; i++) {
        bool is_escaped = name[i] == '~' || name[i] == '/';
        out[size++] = is_escaped ? '~' : name[i];
        if (is_escaped) {
            out[size++] = name[i] == '/' ? '1' : '0';
        }
    }
    return size;
}

/* Returns the node of the value that a token selects in the value of a node, or `count`. */
static size_t child_by_hand(const uint8_t *bytes, const struct pergidau_json_node *nodes, size_t count,
                            size_t at, const uint8_t *token, size_t length)
{
    static uint8_t name[1 << 16], wanted[1 << 16];
    size_t index = 0, size;
    if (nodes[at].kind == PERGIDAU_JSON_OBJECT) {
        size_t want = token_by_hand(token, length, wanted);
        for (size_t i = at + 1; i < nodes[at].next; i = nodes[i].next) {
            string_by_hand(bytes + nodes[i].start, nodes[i].end - nodes[i].start, name, &size);
            i++;
            if (size == want && memcmp(name, wanted, size) == 0) {
                return i;
            }
        }
        return count;
    }
    if (nodes[at].kind != PERGIDAU_JSON_ARRAY || length == 0 || (token[0] == '0' && length > 1)) {
        return count;
    }
    for (size_t i = 0; i < length; i++) {
        if (token[i] < '0' || token[i] > '9' || index > count) {
            return count;
        }
        index = index * 10 + token[i] - '0';
    }
    size_t i = at + 1;
    for (; i < nodes[at].next && index > 0; index--) {
        i = nodes[i].next;
    }
    return i < nodes[at].next ? i : count;
}

/* Writes a pointer to the value of a random node, and returns its length. */
static size_t some_pointer(const uint8_t *bytes, const struct pergidau_json_node *nodes, uint8_t *out)
{
    static uint8_t name[1 << 16];
    size_t at = 0, size, length = 0;
    while (at + 1 < nodes[at].next && below(8) > 0) {
        bool is_object = nodes[at].kind == PERGIDAU_JSON_OBJECT;
        size_t end = nodes[at].next, index = 0;
        for (at++; below(2) && nodes[at + is_object].next < end; at = nodes[at + is_object].next) {
            index++;
        }
        out[length++] = '/';
        if (is_object) {
            string_by_hand(bytes + nodes[at].start, nodes[at].end - nodes[at].start, name, &size);
            length += put_token(name, size, out + length);
            at++;
        } else {
            length += (size_t)sprintf((char *)out + length, "%zu", index);
        }
    }
    return length;
}

/* Finds the value of a pointer among the nodes; returns the code, and the last node that it reaches. */
static enum pergidau_code pointed_by_hand(const uint8_t *bytes, const struct pergidau_json_node *nodes,
                                          size_t count, const uint8_t *pointer, size_t length, size_t *at)
{
    enum pergidau_code code = PERGIDAU_DONE;
    for (size_t i = *at = 0; i < length;) {
        size_t end = i + 1;
        for (; end < length && pointer[end] != '/'; end++) {
        }
        size_t child = child_by_hand(bytes, nodes, count, *at, pointer + i + 1, end - i - 1);
        code = child < count && code == PERGIDAU_DONE ? PERGIDAU_DONE : PERGIDAU_END;
        *at = code == PERGIDAU_DONE ? child : *at;
        i = end;
    }
    return code;
}

static bool is_pointer_by_hand(const uint8_t *pointer, size_t length)
{
    for (size_t i = 0; i < length; i++) {
        if ((i == 0 && pointer[i] != '/')
            || (pointer[i] == '~' && (i + 1 == length || (pointer[i + 1] | 1) != '1'))) {
            return false;
        }
    }
    return true;
}

/* Compares a pointer with the search among the nodes. */
static void read_pointer(const uint8_t *bytes, size_t length)
{
    static uint8_t pointer[1 << 18];
    struct pergidau_json_item item;
    size_t max_depth = below(8), count = 0, at, size = 0;
    pergidau_json_nodes(bytes, length, max_depth, NULL, 0, &count);
    struct pergidau_json_node *nodes = malloc((count + 1) * sizeof *nodes);
    if (count > 0) {
        HOLDS(pergidau_json_nodes(bytes, length, max_depth, nodes, count, &count) == PERGIDAU_DONE);
        size = some_pointer(bytes, nodes, pointer);
    }
    if (below(4) == 0) {
        size_t from = below(size + 1);
        size = from + (size_t)sprintf((char *)pointer + from, "%s", below(2) ? "/-" : "~2");
    }
    enum pergidau_code code = pergidau_json_pointer(bytes, length, max_depth, pointer, size, &item);
    bool is = is_pointer_by_hand(pointer, size);
    HOLDS((code == PERGIDAU_INVALID_POINTER) == !is);
    if (is && count > 0) {
        HOLDS(code == pointed_by_hand(bytes, nodes, count, pointer, size, &at));
        HOLDS(item.kind == nodes[at].kind && item.span.offset == nodes[at].start);
        HOLDS(item.span.length == nodes[at].end - nodes[at].start);
    } else if (code == PERGIDAU_DONE || code == PERGIDAU_END) {
        HOLDS(within(item.span, length) && item.span.length > 0);
    } else {
        HOLDS(item.kind == PERGIDAU_JSON_NULL && item.span.offset == 0 && item.span.length == 0);
    }
    free(nodes);
}

/* Compares the lookup of a member or an element among nodes with the search by hand. */
static void find_node(const uint8_t *bytes, size_t length, const struct pergidau_json_node *nodes,
                      size_t count, size_t at)
{
    static uint8_t name[1 << 16], token[1 << 17];
    size_t inside = nodes[at].next - at - 1, size = 0, out, position = below(4);
    size_t sought = inside > 0 ? at + 1 + below(inside) : at;
    if (nodes[sought].kind == PERGIDAU_JSON_NAME || nodes[sought].kind == PERGIDAU_JSON_STRING) {
        string_by_hand(bytes + nodes[sought].start, nodes[sought].end - nodes[sought].start, name, &size);
    }
    size_t token_length = put_token(name, size, token);
    bool is_token = below(2);
    enum pergidau_code code = pergidau_json_node_member(bytes, length, nodes, count, at,
                                                        is_token ? token : name,
                                                        is_token ? token_length : size, is_token, &out);
    if (nodes[at].kind == PERGIDAU_JSON_OBJECT) {
        size_t child = child_by_hand(bytes, nodes, count, at, token, token_length);
        HOLDS(code == (child < count ? PERGIDAU_DONE : PERGIDAU_END));
        HOLDS(out == (child < count ? child : 0));
    } else {
        HOLDS(code == PERGIDAU_INVALID && out == 0);
    }
    token_length = (size_t)sprintf((char *)token, "%zu", position);
    code = pergidau_json_node_element(nodes, count, at, position, &out);
    if (nodes[at].kind == PERGIDAU_JSON_ARRAY) {
        size_t child = child_by_hand(bytes, nodes, count, at, token, token_length);
        HOLDS(code == (child < count ? PERGIDAU_DONE : PERGIDAU_END));
        HOLDS(out == (child < count ? child : 0));
    } else {
        HOLDS(code == PERGIDAU_INVALID && out == 0);
    }
}

static void read_node_lookups(const uint8_t *bytes, size_t length)
{
    struct pergidau_json_node broken[8];
    size_t max_depth = below(8), count = 0, out;
    pergidau_json_nodes(bytes, length, max_depth, NULL, 0, &count);
    struct pergidau_json_node *nodes = malloc((count + 1) * sizeof *nodes);
    if (count > 0) {
        HOLDS(pergidau_json_nodes(bytes, length, max_depth, nodes, count, &count) == PERGIDAU_DONE);
        for (size_t i = 0; i < 8; i++) {
            find_node(bytes, length, nodes, count, below(count));
        }
    }
    free(nodes);
    for (size_t i = 0; i < 8; i++) {
        broken[i] = (struct pergidau_json_node){(enum pergidau_json_kind)below(9), below(length + 2), 0,
                                                i < 2 ? 8 - i : below(12)};
    }
    broken[0].kind = PERGIDAU_JSON_OBJECT;
    enum pergidau_code code = pergidau_json_node_member(bytes, length, broken, 8, below(2), bytes,
                                                        below(length + 1), 0, &out);
    HOLDS(code == PERGIDAU_DONE ? out > 1 && out < 8 : out == 0);
    code = pergidau_json_node_element(broken, 8, below(9), below(4), &out);
    HOLDS(code == PERGIDAU_DONE ? out < 8 : out == 0);
}
