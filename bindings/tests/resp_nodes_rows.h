/* Tables of Redis replies and their nodes: included by rows.c. The offsets are counted by hand. */

static const struct {
    const char *bytes;
    size_t protocol, count, length;
    struct pergidau_resp_node nodes[7];
} noded_replies[] = {
    {"+OK\r\n:", 2, 1, 5, {{PERGIDAU_RESP_SIMPLE, 0, 0, 1, 3, 1}}},
    {"-E\r\n", 2, 1, 4, {{PERGIDAU_RESP_ERROR, 0, 0, 1, 2, 1}}},
    {":-07\r\n", 2, 1, 6, {{PERGIDAU_RESP_INTEGER, -7, 0, 0, 0, 1}}},
    {"$-1\r\n", 2, 1, 5, {{PERGIDAU_RESP_NULL_BULK, 0, 0, 0, 0, 1}}},
    {"*-1\r\n", 2, 1, 5, {{PERGIDAU_RESP_NULL_ARRAY, 0, 0, 0, 0, 1}}},
    {"_\r\n", 3, 1, 3, {{PERGIDAU_RESP_NULL, 0, 0, 0, 0, 1}}},
    {"#t\r\n", 3, 1, 4, {{PERGIDAU_RESP_BOOLEAN, 1, 0, 0, 0, 1}}},
    {"(-7\r\n", 3, 1, 5, {{PERGIDAU_RESP_BIG_NUMBER, 0, 0, 1, 3, 1}}},
    {"!2\r\nab\r\n", 3, 1, 8, {{PERGIDAU_RESP_BULK_ERROR, 0, 0, 4, 6, 1}}},
    {"=5\r\ntxt:a\r\n", 3, 1, 11, {{PERGIDAU_RESP_VERBATIM, 0, 0, 4, 9, 1}}},
    {">0\r\n", 3, 1, 4, {{PERGIDAU_RESP_PUSH, 0, 0, 4, 4, 1}}},
    {"*2\r\n*2\r\n:7\r\n*0\r\n$3\r\nfoo\r\n*", 2, 5, 25,
     {{PERGIDAU_RESP_ARRAY, 0, 2, 4, 25, 5},
      {PERGIDAU_RESP_ARRAY, 0, 2, 8, 16, 4},
      {PERGIDAU_RESP_INTEGER, 7, 0, 0, 0, 3},
      {PERGIDAU_RESP_ARRAY, 0, 0, 16, 16, 4},
      {PERGIDAU_RESP_BULK, 0, 0, 20, 23, 5}}},
    {"%1\r\n+a\r\n~1\r\n|1\r\n+b\r\n_\r\n,1\r\n", 3, 7, 27,
     {{PERGIDAU_RESP_MAP, 0, 2, 4, 27, 7},
      {PERGIDAU_RESP_SIMPLE, 0, 0, 5, 6, 2},
      {PERGIDAU_RESP_SET, 0, 1, 12, 27, 7},
      {PERGIDAU_RESP_ATTRIBUTES, 0, 3, 16, 27, 7},
      {PERGIDAU_RESP_SIMPLE, 0, 0, 17, 18, 5},
      {PERGIDAU_RESP_NULL, 0, 0, 0, 0, 6},
      {PERGIDAU_RESP_DOUBLE, 0, 0, 24, 25, 7}}},
};

static bool is_same_resp_node(const struct pergidau_resp_node *one,
                              const struct pergidau_resp_node *other)
{
    return one->kind == other->kind && one->number == other->number
        && one->elements == other->elements && one->start == other->start && one->end == other->end
        && one->next == other->next;
}

static void sized(const char *row, const struct pergidau_resp_nodes_size *out, size_t count,
                  size_t length, size_t offset)
{
    same("the number of nodes", row, (long long)out->count, (long long)count);
    same("the length", row, (long long)out->length, (long long)length);
    same("the error offset", row, (long long)out->error_offset, (long long)offset);
}

/* Writes the nodes of a row into a buffer of `size` entries, and compares all that fit. */
static void test_resp_nodes_in(size_t i, size_t size)
{
    const struct pergidau_resp_node other = {PERGIDAU_RESP_SET, 76, 77, 78, 79, 80};
    struct pergidau_resp_node *nodes = malloc((size + 1) * sizeof *nodes);
    struct pergidau_resp_nodes_size out = {1, 2, 3};
    const char *row = noded_replies[i].bytes;
    size_t length = strlen(row), count = noded_replies[i].count;
    uint32_t protocol = (uint32_t)noded_replies[i].protocol;
    uint8_t *bytes = copied(row, length);
    for (size_t k = 0; k <= size; k++) {
        nodes[k] = other;
    }
    same("resp_nodes", row, pergidau_resp_nodes(bytes, length, protocol, 3, nodes, size, &out),
         count <= size ? PERGIDAU_DONE : PERGIDAU_BUFFER_TOO_SMALL);
    sized(row, &out, count, noded_replies[i].length, 0);
    for (size_t k = 0; k <= size; k++) {
        bool written = k < size && k < count;
        same("a node", row,
             is_same_resp_node(&nodes[k], written ? &noded_replies[i].nodes[k] : &other), 1);
    }
    free(bytes);
    free(nodes);
}

static void test_resp_nodes(void)
{
    struct pergidau_resp_node node;
    struct pergidau_resp_nodes_size out;
    for (size_t i = 0; i < sizeof noded_replies / sizeof *noded_replies; i++) {
        for (size_t size = 0; size < 10; size++) {
            test_resp_nodes_in(i, size);
        }
        const char *row = noded_replies[i].bytes;
        for (size_t end = 0; end < noded_replies[i].length; end++) {
            uint8_t *bytes = copied(row, end);
            same("partial input", row, pergidau_resp_nodes(bytes, end, 3, 3, NULL, 0, &out),
                 PERGIDAU_INCOMPLETE);
            sized(row, &out, 0, 0, 0);
            free(bytes);
        }
    }
    for (size_t i = 0; i < sizeof no_replies / sizeof *no_replies; i++) {
        const char *row = no_replies[i].bytes;
        uint32_t protocol = (uint32_t)no_replies[i].protocol;
        uint8_t *bytes = copied(row, strlen(row));
        same("invalid reply", row,
             pergidau_resp_nodes(bytes, strlen(row), protocol, 1, &node, 1, &out),
             no_replies[i].code);
        sized(row, &out, 0, 0, no_replies[i].offset);
        free(bytes);
    }
    const uint8_t *one = (const uint8_t *)"+\r\n";
    same("null", "nodes", pergidau_resp_nodes(NULL, 1, 2, 1, &node, 1, &out), PERGIDAU_NULL);
    same("null", "nodes", pergidau_resp_nodes(one, 3, 2, 1, NULL, 1, &out), PERGIDAU_NULL);
    same("null", "nodes", pergidau_resp_nodes(one, 3, 2, 1, &node, 1, NULL), PERGIDAU_NULL);
    same("too long", "nodes",
         pergidau_resp_nodes(one, (size_t)PTRDIFF_MAX + 1, 2, 1, &node, 1, &out), PERGIDAU_TOO_LONG);
    same("too deep", "nodes",
         pergidau_resp_nodes(one, 3, 2, PERGIDAU_MAX_DEPTH + 1, &node, 1, &out),
         PERGIDAU_MAX_DEPTH_TOO_LARGE);
    sized("too deep", &out, 0, 0, 0);
    same("too small", "nodes", pergidau_resp_nodes(one, 3, 2, 0, NULL, 0, &out),
         PERGIDAU_BUFFER_TOO_SMALL);
    sized("+", &out, 1, 3, 0);
}
