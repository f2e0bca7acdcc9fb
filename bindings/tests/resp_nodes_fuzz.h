/* Random Redis replies as nodes: included by fuzz.c. */

/* Checks that a node is that of the reply at the start of some bytes, and that it ends with the nodes
 * in it. `at` is the offset of these bytes. Returns the index after these nodes. */
static size_t check_resp_node(const uint8_t *bytes, size_t at, size_t length, uint32_t protocol,
                              size_t max_depth, const struct pergidau_resp_node *nodes, size_t index)
{
    const struct pergidau_resp_node *node = &nodes[index];
    struct pergidau_resp_value reply;
    size_t inside = index + 1;
    HOLDS(pergidau_resp_reply_partial(bytes + at, length - at, protocol, max_depth, &reply)
          == PERGIDAU_DONE);
    HOLDS(node->kind == reply.kind && node->number == reply.number);
    HOLDS(node->elements == reply.elements && node->end - node->start == reply.span.length);
    HOLDS(node->start == (reply.span.offset + reply.span.length ? at + reply.span.offset : 0));
    size_t from = node->start;
    for (size_t i = 0; i < node->elements; i++) {
        HOLDS(pergidau_resp_reply(bytes + from, length - from, protocol, max_depth - 1, &reply)
              == PERGIDAU_DONE);
        inside = check_resp_node(bytes, from, length, protocol, max_depth - 1, nodes, inside);
        from += reply.length;
    }
    HOLDS(node->next == inside);
    return inside;
}

/* Compares the nodes of a reply with the function that reads it, and those of smaller buffers with the
 * first nodes. */
static void read_resp_nodes(const uint8_t *bytes, size_t length)
{
    size_t max_depth = below(4);
    uint32_t protocol = 2 + (uint32_t)below(2);
    struct pergidau_resp_value reply;
    struct pergidau_resp_nodes_size out, again;
    enum pergidau_code read = pergidau_resp_reply_partial(bytes, length, protocol, max_depth, &reply);
    enum pergidau_code code = pergidau_resp_nodes(bytes, length, protocol, max_depth, NULL, 0, &out);
    HOLDS(code == (read == PERGIDAU_DONE ? PERGIDAU_BUFFER_TOO_SMALL : read));
    HOLDS(out.length == reply.length && out.error_offset == reply.error_offset);
    if (read != PERGIDAU_DONE) {
        HOLDS(out.count == 0);
        return;
    }
    size_t count = out.count, fewer = below(count);
    HOLDS(count > 0 && 3 * count <= out.length + 2);
    struct pergidau_resp_node *nodes = malloc((count + 1) * sizeof *nodes);
    struct pergidau_resp_node *first = malloc((fewer + 1) * sizeof *first);
    HOLDS(nodes != NULL && first != NULL);
    nodes[count].next = first[fewer].next = 77;
    HOLDS(pergidau_resp_nodes(bytes, length, protocol, max_depth, nodes, count + 1, &again)
          == PERGIDAU_DONE);
    HOLDS(again.count == count && again.length == reply.length && nodes[count].next == 77);
    HOLDS(check_resp_node(bytes, 0, length, protocol, max_depth, nodes, 0) == count);
    HOLDS(pergidau_resp_nodes(bytes, length, protocol, max_depth, first, fewer, &again)
          == PERGIDAU_BUFFER_TOO_SMALL);
    HOLDS(again.count == count && first[fewer].next == 77);
    for (size_t i = 0; i < fewer; i++) {
        HOLDS(first[i].kind == nodes[i].kind && first[i].number == nodes[i].number);
        HOLDS(first[i].elements == nodes[i].elements && first[i].start == nodes[i].start);
        HOLDS(first[i].end == nodes[i].end && first[i].next == nodes[i].next);
    }
    free(first);
    free(nodes);
}
