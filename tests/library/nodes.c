/* Tries the calls on types, nodes and items, each answer of each: prints nothing, and ends with 0 if all are as they should be. */
#include "dceidl.h"

#include <stdio.h>
#include <stdlib.h>
#include <string.h>

static const char IDL[] = "[uuid(11111111-2222-3333-4444-555555555555), pointer_default(unique)] interface t {\n"
                          "typedef struct { short low; hyper high; } pair;\n"
                          "typedef union switch (short k) { case -1: long a; case 2: ; } pick;\n"
                          "typedef pipe long longs;\n"
                          "long f([in] long n, [in, size_is(n)] pair pairs[*], [in] pick one, [in] pick none, [in, string] char *word, [in] byte four[4], [in] longs all,\n"
                          "  [out] pair *first);\n"
                          "void g([in] long n, [out, size_is(n)] byte bytes[*]); }";

static const char TEXT[] = "values 2 op f in n = 2 pairs = [{low = -1, high = 5}, {low = 2, high = -6}] one = -1:7 none = 2:void\n"
                           "word = @1 four = x\"0180fffe\" all = [1, -2, 3] @1 = 3:\"ab\"";

static void need(int holds, const char *what) {
    if (!holds) {
        fprintf(stderr, "%s\n", what);
        exit(1);
    }
}

static size_t root_of(dceidl_interface *interface, uint32_t operation, uint32_t side, const char *name, uint32_t *type) {
    size_t root = 0;
    need(dceidl_root_named(interface, operation, side, dceidl_some(name), strlen(name), &root, type) == DCEIDL_OK, name);
    return root;
}

static void types(dceidl_interface *interface) {
    dceidl_interface none = DCEIDL_NONE;
    uint32_t first, pair, pairs, element, type;
    size_t at;
    need(dceidl_root_named(&none, 0, DCEIDL_IN, dceidl_some("n"), 1, &at, &type) == DCEIDL_EMPTY, "root of nothing");
    need(dceidl_root_named(interface, 2, DCEIDL_IN, dceidl_some("n"), 1, &at, &type) == DCEIDL_ARGUMENT, "no operation");
    need(dceidl_root_named(interface, 0, 2, dceidl_some("n"), 1, &at, &type) == DCEIDL_ARGUMENT, "no side");
    need(dceidl_root_named(interface, 0, DCEIDL_IN, dceidl_some(NULL), 0, &at, &type) == DCEIDL_ABSENT, "no name");
    need(dceidl_root_named(interface, 0, DCEIDL_IN, dceidl_some("pair"), 4, &at, &type) == DCEIDL_ABSENT, "another name");
    need(root_of(interface, 0, DCEIDL_IN, "n", &type) == 0 && root_of(interface, 0, DCEIDL_IN, "pairs", &pairs) == 1, "roots");
    need(root_of(interface, 0, DCEIDL_IN, "all", &type) == 6 && root_of(interface, 0, DCEIDL_OUT, "return", &type) == 1, "the last root and the result");
    need(root_of(interface, 0, DCEIDL_OUT, "first", &first) == 0 && dceidl_element_type(interface, first, &pair) == DCEIDL_OK, "a pointer");
    need(dceidl_element_type(interface, pairs, &element) == DCEIDL_OK && element == pair, "the elements are pairs");
    need(dceidl_member_named(interface, pair, dceidl_some("high"), 4, &at, &type) == DCEIDL_OK && at == 1, "member");
    need(dceidl_element_type(interface, type, &element) == DCEIDL_ARGUMENT, "no elements");
    need(dceidl_member_named(interface, pair, dceidl_some("hig"), 3, &at, &type) == DCEIDL_ABSENT, "no member");
    need(dceidl_member_named(interface, pairs, dceidl_some("high"), 4, &at, &type) == DCEIDL_ARGUMENT, "no struct");
    need(dceidl_member_named(interface, UINT32_MAX, dceidl_some("high"), 4, &at, &type) == DCEIDL_ARGUMENT, "no type");
    need(dceidl_element_type(interface, UINT32_MAX, &type) == DCEIDL_ARGUMENT, "no type");
    need(dceidl_member_named(&none, 0, dceidl_some("high"), 4, &at, &type) == DCEIDL_EMPTY && dceidl_element_type(&none, 0, &type) == DCEIDL_EMPTY, "no interface");
}

/* A node, by its number. */
static dceidl_node node_at(dceidl_nodes *nodes, size_t number) {
    dceidl_node node;
    need(dceidl_node_at(nodes, number, &node) == DCEIDL_OK, "node");
    return node;
}

static void nodes_of(dceidl_values *values) {
    static const uint8_t four[] = {1, 128, 255, 254};
    dceidl_nodes nodes = DCEIDL_NONE;
    dceidl_node node;
    size_t roots, cells, at, part, count;
    uint64_t numbers[4];
    uint8_t octets[4];
    need(dceidl_node_at(&nodes, 0, &node) == DCEIDL_EMPTY && dceidl_root_node(&nodes, 0, &at) == DCEIDL_EMPTY, "nodes of nothing");
    need(dceidl_nodes_of(values, &nodes) == DCEIDL_OK, "nodes");
    need(dceidl_home_counts(&nodes, &roots, &cells) == DCEIDL_OK && roots == 7 && cells == 1, "counts");
    need(dceidl_root_node(&nodes, 1, &at) == DCEIDL_OK && at == 1, "pairs");
    node = node_at(&nodes, at);
    need(node.kind == DCEIDL_ARRAY && node.parts == 2 && node.count == 2 && node.numbers == 0 && node.max == 2, "an array of structs");
    need(dceidl_node_part(&nodes, at, 1, &part) == DCEIDL_OK && part == 5, "the second");
    node = node_at(&nodes, part + 2);
    need(node.kind == DCEIDL_NUMBER && (int64_t)node.number == -6, "its second member");
    need(dceidl_node_numbers(&nodes, at, numbers, 0, &count) == DCEIDL_OK && count == 0, "no numbers");
    need(dceidl_root_node(&nodes, 2, &at) == DCEIDL_OK && at == 8, "one");
    node = node_at(&nodes, at);
    need(node.kind == DCEIDL_UNION && node.parts == 1 && (int64_t)node.number == -1 && node_at(&nodes, at + 1).number == 7, "a union with a value");
    need(dceidl_root_node(&nodes, 3, &at) == DCEIDL_OK && node_at(&nodes, at).parts == 0 && node_at(&nodes, at).number == 2, "a union without one");
    need(dceidl_node_part(&nodes, at, 0, &part) == DCEIDL_ARGUMENT, "no part");
    need(dceidl_root_node(&nodes, 4, &at) == DCEIDL_OK && node_at(&nodes, at).kind == DCEIDL_POINTER && node_at(&nodes, at).number == 1, "a pointer");
    need(dceidl_cell_node(&nodes, 1, &at) == DCEIDL_OK, "its cell");
    node = node_at(&nodes, at);
    need(node.kind == DCEIDL_STRING && node.max == 3 && node.length == 2, "a string");
    need(dceidl_node_octets(&nodes, at, octets, 4, &count) == DCEIDL_OK && count == 2 && !memcmp(octets, "ab", 2), "its octets");
    need(dceidl_root_node(&nodes, 5, &at) == DCEIDL_OK && node_at(&nodes, at).numbers == 4 && node_at(&nodes, at).max == 4, "bytes");
    need(dceidl_node_bytes(&nodes, at, octets, 4, &count) == DCEIDL_OK && count == 4 && !memcmp(octets, four, 4), "their octets");
    need(dceidl_node_bytes(&nodes, at, octets, 3, &count) == DCEIDL_SHORT && count == 4, "short");
    need(dceidl_node_octets(&nodes, at, octets, 4, &count) == DCEIDL_ARGUMENT, "no string");
    need(dceidl_root_node(&nodes, 6, &at) == DCEIDL_OK && node_at(&nodes, at).kind == DCEIDL_PIPE && node_at(&nodes, at).count == 3, "a pipe");
    need(dceidl_node_numbers(&nodes, at, numbers, 4, &count) == DCEIDL_OK && count == 3 && (int64_t)numbers[1] == -2, "its numbers");
    dceidl_nodes_free(&nodes);
}

static void items_of(dceidl_interface *interface, dceidl_fault *fault) {
    static const uint8_t request[] = {2, 0, 0, 0}, response[] = {2, 0, 0, 0, 7, 8};
    dceidl_values values = DCEIDL_NONE;
    dceidl_items items = DCEIDL_NONE;
    dceidl_item item;
    dceidl_cause cause;
    size_t count, taken;
    need(dceidl_items_of(interface, 1, DCEIDL_IN, 2, request, 4, &items, fault) == DCEIDL_ARGUMENT, "no order");
    need(dceidl_items_of(interface, 2, DCEIDL_IN, DCEIDL_LITTLE, request, 4, &items, fault) == DCEIDL_ARGUMENT, "no operation");
    need(dceidl_items_of(interface, 1, DCEIDL_IN, DCEIDL_LITTLE, request, 3, &items, fault) == DCEIDL_REFUSED, "too short");
    need(dceidl_fault_cause(fault, &cause) == DCEIDL_OK && cause.reason == DCEIDL_OCTETS_TRUNCATED && cause.place == 3, "where");
    need(dceidl_item_count(&items, &count) == DCEIDL_EMPTY, "nothing yet");
    need(dceidl_items_of_response(&values, DCEIDL_LITTLE, response, 6, &items, fault) == DCEIDL_EMPTY, "no request");
    need(dceidl_decode(interface, 1, DCEIDL_IN, DCEIDL_LITTLE, request, 4, &values, &taken, fault) == DCEIDL_OK, "request");
    need(dceidl_items_of_response(&values, DCEIDL_LITTLE, response, 6, &items, fault) == DCEIDL_OK, "response");
    need(dceidl_item_count(&items, &count) == DCEIDL_OK && count == 3, "three items");
    need(dceidl_item_at(&items, 2, &item) == DCEIDL_OK, "the last");
    need(item.at == 5 && item.length == 1 && item.kind == DCEIDL_ITEM_NUMBER && !item.in_cell && item.home == 0 && item.node == 2 && item.number == 8, "a byte");
    need(dceidl_item_at(&items, 3, &item) == DCEIDL_ARGUMENT, "past the last");
    need(dceidl_items_of_response(&values, DCEIDL_BIG, response, 6, &items, fault) == DCEIDL_REFUSED, "another count");
    need(dceidl_item_count(&items, &count) == DCEIDL_OK && count == 3, "the items stay");
    need(dceidl_decode(interface, 1, DCEIDL_OUT, DCEIDL_LITTLE, response, 6, &values, &taken, fault) == DCEIDL_OK, "a response");
    need(dceidl_items_of_response(&values, DCEIDL_LITTLE, response, 6, &items, fault) == DCEIDL_ARGUMENT, "no values of a request");
    dceidl_items_free(&items);
    dceidl_values_free(&values);
}

/* Values and items in one reading. */
static void both_of(dceidl_interface *interface, dceidl_fault *fault) {
    static const uint8_t request[] = {2, 0, 0, 0}, response[] = {2, 0, 0, 0, 7, 8, 9};
    dceidl_values asked = DCEIDL_NONE, answered = DCEIDL_NONE, none = DCEIDL_NONE;
    dceidl_items items = DCEIDL_NONE;
    size_t count, taken = 0;
    uint32_t operation, side;
    need(dceidl_decode_items(interface, 1, 2, DCEIDL_LITTLE, request, 4, &asked, &items, &taken, fault) == DCEIDL_ARGUMENT, "no side");
    need(dceidl_decode_items(interface, 1, DCEIDL_IN, DCEIDL_LITTLE, request, 3, &asked, &items, &taken, fault) == DCEIDL_REFUSED && taken == 0, "too short");
    need(dceidl_values_of(&asked, &operation, &side) == DCEIDL_EMPTY && dceidl_item_count(&items, &count) == DCEIDL_EMPTY, "neither");
    need(dceidl_decode_items(interface, 1, DCEIDL_IN, DCEIDL_LITTLE, request, 4, &asked, &items, &taken, fault) == DCEIDL_OK && taken == 4, "request");
    need(dceidl_values_of(&asked, &operation, &side) == DCEIDL_OK && operation == 1 && side == DCEIDL_IN, "its values");
    need(dceidl_item_count(&items, &count) == DCEIDL_OK && count == 1, "its item");
    need(dceidl_decode_response_items(&none, DCEIDL_LITTLE, response, 7, &answered, &items, &taken, fault) == DCEIDL_EMPTY, "no request");
    need(dceidl_decode_response_items(&asked, DCEIDL_BIG, response, 7, &answered, &items, &taken, fault) == DCEIDL_REFUSED && taken == 4, "another count");
    need(dceidl_decode_response_items(&asked, DCEIDL_LITTLE, response, 7, &answered, &items, &taken, fault) == DCEIDL_OK && taken == 6, "response");
    need(dceidl_item_count(&items, &count) == DCEIDL_OK && count == 3, "its items");
    need(dceidl_decode_response_items(&answered, DCEIDL_LITTLE, response, 7, &asked, &items, &taken, fault) == DCEIDL_ARGUMENT, "no request either");
    dceidl_items_free(&items);
    dceidl_values_free(&asked);
    dceidl_values_free(&answered);
}

int main(void) {
    dceidl_file file = {dceidl_some("t.idl"), 5, dceidl_some(IDL), sizeof IDL - 1};
    dceidl_interface interface = DCEIDL_NONE;
    dceidl_values values = DCEIDL_NONE;
    dceidl_fault fault = DCEIDL_NONE;
    uint8_t line[256];
    size_t length;
    uint32_t status = dceidl_compile(&file, 1, 0, &interface, &fault);
    if (!status)
        status = dceidl_read(&interface, 0, DCEIDL_IN, dceidl_some(TEXT), sizeof TEXT - 1, &values, &fault);
    if (status == DCEIDL_REFUSED && dceidl_fault_line(&fault, line, sizeof line, &length) == DCEIDL_OK)
        fwrite(line, 1, length, stderr);
    need(status == DCEIDL_OK, "values");
    types(&interface);
    nodes_of(&values);
    items_of(&interface, &fault);
    both_of(&interface, &fault);
    dceidl_values_free(&values);
    dceidl_interface_free(&interface);
    dceidl_fault_free(&fault);
    return 0;
}
