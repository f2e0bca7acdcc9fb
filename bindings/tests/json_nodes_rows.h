/* Tables of JSON texts and their nodes: included by rows.c. The offsets are counted by hand. */

static const struct {
    const char *text;
    size_t count;
    struct pergidau_json_node nodes[9];
} noded[] = {
    {" null ", 1, {{PERGIDAU_JSON_NULL, 1, 5, 1}}},
    {"[]", 1, {{PERGIDAU_JSON_ARRAY, 0, 2, 1}}},
    {"[true, [[]], false]", 5,
     {{PERGIDAU_JSON_ARRAY, 0, 19, 5},
      {PERGIDAU_JSON_TRUE, 1, 5, 2},
      {PERGIDAU_JSON_ARRAY, 7, 11, 4},
      {PERGIDAU_JSON_ARRAY, 8, 10, 4},
      {PERGIDAU_JSON_FALSE, 13, 18, 5}}},
    {"{ \"a\" : {\"b\" :1 } ,\"c\":[2 , \"d\"]}", 9,
     {{PERGIDAU_JSON_OBJECT, 0, 33, 9},
      {PERGIDAU_JSON_NAME, 2, 5, 2},
      {PERGIDAU_JSON_OBJECT, 8, 17, 5},
      {PERGIDAU_JSON_NAME, 9, 12, 4},
      {PERGIDAU_JSON_NUMBER, 14, 15, 5},
      {PERGIDAU_JSON_NAME, 19, 22, 6},
      {PERGIDAU_JSON_ARRAY, 23, 32, 9},
      {PERGIDAU_JSON_NUMBER, 24, 25, 8},
      {PERGIDAU_JSON_STRING, 28, 31, 9}}},
};

/* Texts that are rejected, with their codes. */
static const struct {
    const char *text;
    size_t max_depth;
    enum pergidau_code code;
} unnoded[] = {
    {"", 2, PERGIDAU_INVALID},
    {"[1,]", 2, PERGIDAU_INVALID},
    {"[[[]]]", 2, PERGIDAU_INVALID},
    {"{} 1", 2, PERGIDAU_INVALID},
    {"\"\xff\"", 2, PERGIDAU_INVALID_UTF8},
    {"1", 513, PERGIDAU_MAX_DEPTH_TOO_LARGE},
};

static bool is_same_node(const struct pergidau_json_node *one, const struct pergidau_json_node *other)
{
    return one->kind == other->kind && one->start == other->start && one->end == other->end
        && one->next == other->next;
}

/* Writes the nodes of a row into a buffer of `size` entries, and compares all that fit. */
static void test_nodes_in(size_t i, size_t size)
{
    const struct pergidau_json_node other = {PERGIDAU_JSON_NUMBER, 77, 78, 79};
    struct pergidau_json_node *nodes = malloc((size + 1) * sizeof *nodes);
    size_t length = strlen(noded[i].text), count = 0;
    uint8_t *text = copied(noded[i].text, length);
    for (size_t k = 0; k <= size; k++) {
        nodes[k] = other;
    }
    same("json_nodes", noded[i].text, pergidau_json_nodes(text, length, 3, nodes, size, &count),
         noded[i].count <= size ? PERGIDAU_DONE : PERGIDAU_BUFFER_TOO_SMALL);
    same("the number of nodes", noded[i].text, (long long)count, (long long)noded[i].count);
    for (size_t k = 0; k <= size; k++) {
        bool written = k < size && k < noded[i].count;
        same("a node", noded[i].text,
             is_same_node(&nodes[k], written ? &noded[i].nodes[k] : &other), 1);
    }
    free(text);
    free(nodes);
}

/* Members and elements of the nodes of this text. `size` is how many nodes are given. */
static const char looked_up[] =
    "{ \"a\" : {\"b\" :1 } ,\"\\u0063\":[2 , \"d\"], \"a\": 3, \"e/f\": 4}";

static const struct {
    size_t size, index;
    const char *name;
    bool is_token;
    enum pergidau_code code;
    size_t out;
} named_nodes[] = {
    {13, 0, "a", false, PERGIDAU_DONE, 2},
    {13, 0, "c", false, PERGIDAU_DONE, 6},
    {13, 0, "e/f", false, PERGIDAU_DONE, 12},
    {13, 0, "e~1f", true, PERGIDAU_DONE, 12},
    {13, 0, "e~1f", false, PERGIDAU_END, 0},
    {13, 0, "\\u0063", false, PERGIDAU_END, 0},
    {13, 0, "b", false, PERGIDAU_END, 0},
    {13, 0, "", false, PERGIDAU_END, 0},
    {13, 2, "b", false, PERGIDAU_DONE, 4},
    {13, 2, "a", false, PERGIDAU_END, 0},
    {5, 2, "b", false, PERGIDAU_DONE, 4},
    /* (not an object, or no node) */
    {13, 1, "a", false, PERGIDAU_INVALID, 0},
    {13, 4, "a", false, PERGIDAU_INVALID, 0},
    {13, 6, "a", false, PERGIDAU_INVALID, 0},
    {13, 13, "a", false, PERGIDAU_INVALID, 0},
    {12, 0, "a", false, PERGIDAU_INVALID, 0},
    {0, 0, "a", false, PERGIDAU_INVALID, 0},
};

static const struct {
    size_t size, index, position;
    enum pergidau_code code;
    size_t out;
} element_nodes[] = {
    {13, 6, 0, PERGIDAU_DONE, 7},
    {13, 6, 1, PERGIDAU_DONE, 8},
    {13, 6, 2, PERGIDAU_END, 0},
    {13, 6, SIZE_MAX, PERGIDAU_END, 0},
    {13, 0, 0, PERGIDAU_INVALID, 0},
    {13, 8, 0, PERGIDAU_INVALID, 0},
    {13, SIZE_MAX, 0, PERGIDAU_INVALID, 0},
    {8, 6, 0, PERGIDAU_INVALID, 0},
};

/* Nodes that are not those of the text: each changes one field of the name of the first member. */
static void test_broken_nodes(const struct pergidau_json_node *nodes)
{
    const struct pergidau_json_node names[] = {
        {PERGIDAU_JSON_NAME, 2, 5, 1},
        {PERGIDAU_JSON_NAME, 2, 5, 13},
        {PERGIDAU_JSON_NAME, 1, 5, 2},
        {PERGIDAU_JSON_NAME, SIZE_MAX, 5, 2},
    };
    struct pergidau_json_node broken[13];
    size_t out;
    for (size_t i = 0; i < sizeof names / sizeof *names; i++) {
        memcpy(broken, nodes, sizeof broken);
        broken[1] = names[i];
        same("a broken name", looked_up,
             pergidau_json_node_member((const uint8_t *)looked_up, strlen(looked_up), broken, 13, 0,
                                       (const uint8_t *)"a", 1, 0, &out), PERGIDAU_INVALID);
        same("its index", looked_up, (long long)out, 0);
    }
    broken[7].next = 7;
    same("a broken element", looked_up, pergidau_json_node_element(broken, 13, 6, 1, &out),
         PERGIDAU_INVALID);
    same("its index", looked_up, (long long)out, 0);
}

static void test_node_lookups(void)
{
    const uint8_t *text = (const uint8_t *)looked_up, *a = (const uint8_t *)"a";
    struct pergidau_json_node nodes[13];
    size_t length = strlen(looked_up), out, far = (size_t)PTRDIFF_MAX + 1;
    same("json_nodes", looked_up, pergidau_json_nodes(text, length, 2, nodes, 13, &out), PERGIDAU_DONE);
    same("the number of nodes", looked_up, (long long)out, 13);
    for (size_t i = 0; i < sizeof named_nodes / sizeof *named_nodes; i++) {
        const char *row = named_nodes[i].name;
        size_t name_length = strlen(row), size = named_nodes[i].size;
        uint8_t *name = copied(row, name_length);
        same("json_node_member", row,
             pergidau_json_node_member(text, length, nodes, size, named_nodes[i].index, name,
                                       name_length, named_nodes[i].is_token, &out),
             named_nodes[i].code);
        same("the index", row, (long long)out, (long long)named_nodes[i].out);
        free(name);
    }
    for (size_t i = 0; i < sizeof element_nodes / sizeof *element_nodes; i++) {
        same("json_node_element", "nodes",
             pergidau_json_node_element(nodes, element_nodes[i].size, element_nodes[i].index,
                                        element_nodes[i].position, &out), element_nodes[i].code);
        same("the index", "nodes", (long long)out, (long long)element_nodes[i].out);
    }
    test_broken_nodes(nodes);
    same("null", "text", pergidau_json_node_member(NULL, 1, nodes, 13, 0, a, 1, 0, &out), PERGIDAU_NULL);
    same("null", "nodes", pergidau_json_node_member(text, 1, NULL, 1, 0, a, 1, 0, &out), PERGIDAU_NULL);
    same("null", "name", pergidau_json_node_member(text, 1, nodes, 13, 0, NULL, 1, 0, &out), PERGIDAU_NULL);
    same("null", "out", pergidau_json_node_member(text, 1, nodes, 13, 0, a, 1, 0, NULL), PERGIDAU_NULL);
    same("null", "nodes", pergidau_json_node_element(NULL, 1, 0, 0, &out), PERGIDAU_NULL);
    same("null", "out", pergidau_json_node_element(nodes, 13, 0, 0, NULL), PERGIDAU_NULL);
    same("too long", "text", pergidau_json_node_member(text, far, nodes, 13, 0, a, 1, 0, &out),
         PERGIDAU_TOO_LONG);
    same("too long", "nodes", pergidau_json_node_element(nodes, far / sizeof *nodes, 0, 0, &out),
         PERGIDAU_TOO_LONG);
}

static void test_nodes(void)
{
    struct pergidau_json_node node;
    const uint8_t *one = (const uint8_t *)"1";
    size_t count;
    for (size_t i = 0; i < sizeof noded / sizeof *noded; i++) {
        for (size_t size = 0; size < 12; size++) {
            test_nodes_in(i, size);
        }
    }
    for (size_t i = 0; i < sizeof unnoded / sizeof *unnoded; i++) {
        size_t length = strlen(unnoded[i].text);
        uint8_t *text = copied(unnoded[i].text, length);
        count = 7;
        same("json_nodes", unnoded[i].text,
             pergidau_json_nodes(text, length, unnoded[i].max_depth, &node, 1, &count),
             unnoded[i].code);
        same("the number of nodes", unnoded[i].text, (long long)count, 0);
        free(text);
    }
    same("null", "nodes", pergidau_json_nodes(NULL, 1, 1, &node, 1, &count), PERGIDAU_NULL);
    same("null", "nodes", pergidau_json_nodes(one, 1, 1, NULL, 1, &count), PERGIDAU_NULL);
    same("null", "nodes", pergidau_json_nodes(one, 1, 1, &node, 1, NULL), PERGIDAU_NULL);
    same("too long", "nodes",
         pergidau_json_nodes(one, (size_t)PTRDIFF_MAX + 1, 1, &node, 1, &count), PERGIDAU_TOO_LONG);
    same("too small", "nodes", pergidau_json_nodes(one, 1, 0, NULL, 0, &count),
         PERGIDAU_BUFFER_TOO_SMALL);
    same("the number of nodes", "1", (long long)count, 1);
}
