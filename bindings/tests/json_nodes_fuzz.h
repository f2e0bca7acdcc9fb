/* Random JSON texts as nodes: included by fuzz.c. */

/* Checks that a node is the next step of a text that was checked, and that it ends with the nodes in
 * it. Returns the index after these. */
static size_t check_node(const uint8_t *bytes, size_t length, size_t max_depth,
                         const struct pergidau_json_node *nodes, size_t count, size_t index)
{
    const struct pergidau_json_node *node = &nodes[index];
    struct pergidau_json_item item;
    size_t at = node->start, inside = index + 1, end = 0;
    HOLDS(node->start < node->end && node->end <= length);
    HOLDS(node->next > index && node->next <= count);
    if (node->kind == PERGIDAU_JSON_NAME) {
        HOLDS(pergidau_json_next(bytes + at, length - at, 0, &item) == PERGIDAU_DONE);
        HOLDS(item.kind == PERGIDAU_JSON_STRING && node->next == inside && inside < count);
    } else {
        HOLDS(pergidau_json_next(bytes + at, length - at, max_depth, &item) == PERGIDAU_DONE);
        HOLDS(item.kind == node->kind);
    }
    HOLDS(item.span.offset == 0 && item.span.length == node->end - at);
    at++;
    while (inside < node->next) {
        HOLDS(pergidau_json_next(bytes + at, length - at, max_depth - 1, &item) == PERGIDAU_DONE);
        HOLDS(nodes[inside].start == at + item.span.offset);
        end = at + item.span.offset + item.span.length;
        HOLDS(nodes[inside].end == end);
        at = end;
        inside = check_node(bytes, length, max_depth - 1, nodes, count, inside);
    }
    if (node->kind == PERGIDAU_JSON_ARRAY || node->kind == PERGIDAU_JSON_OBJECT) {
        HOLDS(pergidau_json_next(bytes + at, length - at, max_depth, &item) == PERGIDAU_END);
    }
    return inside;
}

/* Compares the nodes of a text with its items and with the header's maximum, and those of smaller
 * buffers with the first nodes. */
static void read_nodes(const uint8_t *bytes, size_t length)
{
    size_t max_depth = below(8), count = 7, most = 1, again;
    enum pergidau_code is_text = pergidau_json_check(bytes, length, max_depth);
    enum pergidau_code code = pergidau_json_nodes(bytes, length, max_depth, NULL, 0, &count);
    HOLDS(code == (is_text == PERGIDAU_DONE ? PERGIDAU_BUFFER_TOO_SMALL : is_text));
    if (is_text != PERGIDAU_DONE) {
        HOLDS(count == 0);
        return;
    }
    HOLDS(count == items(bytes, length, max_depth));
    for (size_t i = 0; i < length; i++) {
        most += bytes[i] == ',' || bytes[i] == ':' || bytes[i] == '[' || bytes[i] == '{';
    }
    HOLDS(count <= most && count <= length / 2 + 1);
    struct pergidau_json_node *nodes = malloc((count + 1) * sizeof *nodes);
    const struct pergidau_json_node other = {PERGIDAU_JSON_NULL, 1, 2, 3};
    nodes[count] = other;
    HOLDS(pergidau_json_nodes(bytes, length, max_depth, nodes, count + 1, &again) == PERGIDAU_DONE);
    HOLDS(again == count && nodes[count].start == 1 && nodes[count].end == 2 && nodes[count].next == 3);
    HOLDS(check_node(bytes, length, max_depth, nodes, count, 0) == count);
    size_t fewer = below(count);
    struct pergidau_json_node *first = malloc((fewer + 1) * sizeof *first);
    code = pergidau_json_nodes(bytes, length, max_depth, first, fewer, &again);
    HOLDS(code == PERGIDAU_BUFFER_TOO_SMALL && again == count);
    for (size_t i = 0; i < fewer; i++) {
        HOLDS(first[i].kind == nodes[i].kind && first[i].start == nodes[i].start);
        HOLDS(first[i].end == nodes[i].end && first[i].next == nodes[i].next);
    }
    free(first);
    free(nodes);
}
