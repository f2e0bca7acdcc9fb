/* Checks the properties of the nodes of TOML documents that callers rely on, on random bytes. Included
 * by `fuzz.c`, after the helpers that it uses. */

/* Checks that the fields of a node that it does not use are 0. */
static void look_at_unused(const uint8_t *bytes, size_t length, size_t number,
                           const struct pergidau_toml_node *node)
{
    const struct pergidau_toml_value *it = &node->value;
    enum pergidau_toml_kind kind = it->kind;
    bool dated = kind >= PERGIDAU_TOML_OFFSET_DATE_TIME && kind <= PERGIDAU_TOML_LOCAL_DATE;
    bool timed = kind >= PERGIDAU_TOML_OFFSET_DATE_TIME && kind != PERGIDAU_TOML_LOCAL_DATE;
    bool spelled = kind == PERGIDAU_TOML_STRING || kind == PERGIDAU_TOML_FLOAT || timed;
    HOLDS(dated || (it->year == 0 && it->month == 0 && it->day == 0));
    HOLDS(timed || (it->hour == 0 && it->minute == 0 && it->second == 0));
    HOLDS(kind == PERGIDAU_TOML_OFFSET_DATE_TIME || it->offset == 0);
    HOLDS(kind == PERGIDAU_TOML_INTEGER || kind == PERGIDAU_TOML_BOOLEAN || it->integer == 0);
    HOLDS((spelled && it->text.length > 0) || (it->text.offset == 0 && it->text.length == 0));
    HOLDS(node->is_element || node->index == 0);
    HOLDS(node->name.length > 0 || node->name.offset == 0);
    HOLDS((number > 0 && !node->is_element) || node->name.length == 0);
    HOLDS(number > 0 || (node->parent == 0 && node->next == 0 && !node->is_element));
}

/* Checks the links of a node to its neighbours, and the spans of its texts. */
static void look_at_node(const uint8_t *bytes, size_t length, size_t number,
                         const struct pergidau_toml_node *nodes, size_t count, size_t text)
{
    const struct pergidau_toml_node *node = &nodes[number];
    HOLDS(node->parent < count && node->first < count && node->next < count);
    HOLDS(within(node->name, text) && within(node->value.text, text));
    HOLDS(node->value.kind <= PERGIDAU_TOML_LOCAL_TIME);
    HOLDS(number == 0 ? node->value.kind == PERGIDAU_TOML_TABLE : node->parent < number);
    look_at_unused(bytes, length, number, node);
    if (number == 0) {
        return;
    }
    const struct pergidau_toml_node *above = &nodes[node->parent];
    HOLDS(above->value.kind == PERGIDAU_TOML_TABLE || above->value.kind == PERGIDAU_TOML_ARRAY);
    HOLDS(node->is_element == (above->value.kind == PERGIDAU_TOML_ARRAY));
    if (node->next > 0) {
        const struct pergidau_toml_node *beside = &nodes[node->next];
        HOLDS(node->next > number && beside->parent == node->parent);
        HOLDS(!node->is_element || beside->index == node->index + 1);
    }
}

/* Checks that each node except the first is the first child or the next sibling of exactly one node. */
static void look_at_joins(const uint8_t *bytes, size_t length,
                          const struct pergidau_toml_node *nodes, size_t count)
{
    size_t joins = 0;
    for (size_t i = 0; i < count; i++) {
        joins += (nodes[i].first > 0) + (nodes[i].next > 0);
        HOLDS(nodes[i].first == 0 || nodes[nodes[i].first].parent == i);
        HOLDS(nodes[i].first == 0 || nodes[nodes[i].first].index == 0);
    }
    HOLDS(joins == count - 1);
}

/* Returns how many nodes a node is below. */
static size_t depth_of(const struct pergidau_toml_node *nodes, size_t number)
{
    size_t depth = 0;
    for (; number > 0; depth++) {
        number = nodes[number].parent;
    }
    return depth;
}

/* Checks that a table or an array is nested at most `max_depth` deep. */
static void look_at_depth(const uint8_t *bytes, size_t length,
                          const struct pergidau_toml_node *nodes, size_t number, size_t max_depth)
{
    enum pergidau_toml_kind kind = nodes[number].value.kind;
    HOLDS((kind != PERGIDAU_TOML_TABLE && kind != PERGIDAU_TOML_ARRAY)
          || depth_of(nodes, number) <= max_depth);
}

static void read_toml(const uint8_t *bytes, size_t length)
{
    struct pergidau_toml_result out;
    size_t max_depth = below(4);
    enum pergidau_code code =
        pergidau_toml_document(bytes, length, max_depth, NULL, 0, NULL, 0, &out);
    if (code != PERGIDAU_BUFFER_TOO_SMALL) {
        HOLDS(code == PERGIDAU_INVALID || code == PERGIDAU_INVALID_UTF8);
        HOLDS(out.error_offset <= length && out.nodes == 0 && out.text == 0);
        HOLDS(out.unclosed_offset <= out.error_offset);
        HOLDS((out.error > 0) == (code == PERGIDAU_INVALID));
        return;
    }
    HOLDS(out.nodes > 0 && out.error_offset == 0 && out.unclosed_offset == 0 && out.error == 0);
    size_t count = out.nodes, size = out.text;
    uint8_t *text = buffer(size);
    struct pergidau_toml_node *nodes = malloc(count * sizeof *nodes);
    if (nodes == NULL) {
        exit(2);
    }
    code = pergidau_toml_document(bytes, length, max_depth, text, size, nodes, count, &out);
    HOLDS(code == PERGIDAU_DONE && out.nodes == count && out.text == size);
    for (size_t i = 0; i < count; i++) {
        look_at_node(bytes, length, i, nodes, count, size);
        look_at_depth(bytes, length, nodes, i, max_depth);
    }
    look_at_joins(bytes, length, nodes, count);
    find_nodes(bytes, length, text, size, nodes, count);
    free(nodes);
}
