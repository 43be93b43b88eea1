/* Tries the calls on faults, fragments, format labels, versions and listings, each answer of each: prints nothing, and ends with 0 if all are as they should be. */
#include "dceidl.h"

#include <stdio.h>
#include <stdlib.h>
#include <string.h>

static const char OLDER[] = "[uuid(11111111-2222-3333-4444-555555555555), version(1.2)] interface t { void add([in] long a, [in] short b); void ping(); }";

static void need(int holds, const char *what) {
    if (!holds) {
        fprintf(stderr, "%s\n", what);
        exit(1);
    }
}

static uint32_t compile(const char *text, dceidl_interface *interface, dceidl_fault *fault) {
    dceidl_file file = {dceidl_some("t.idl"), 5, dceidl_some(text), 0};
    file.text_length = strlen(text);
    return dceidl_compile(&file, 1, 0, interface, fault);
}

/* The numbers of a fault, which must be of this kind and reason, and have this name, if any. */
static dceidl_cause cause_of(dceidl_fault *fault, uint32_t kind, uint32_t reason, const char *name) {
    dceidl_cause cause;
    uint8_t out[256];
    size_t length, line;
    need(dceidl_fault_cause(fault, &cause) == DCEIDL_OK, "cause");
    if (cause.kind != kind || cause.reason != reason)
        fprintf(stderr, "kind %u, reason %u\n", cause.kind, cause.reason);
    need(cause.kind == kind && cause.reason == reason, "kind and reason");
    need(dceidl_fault_name(fault, out, sizeof out, &length) == DCEIDL_OK && length == strlen(name) && !memcmp(out, name, length), name);
    need(length == 0 || (dceidl_fault_name(fault, out, length - 1, &length) == DCEIDL_SHORT && length == strlen(name)), "short name");
    need(dceidl_fault_file(fault, out, sizeof out, &length) == DCEIDL_OK && (length > 0) == (kind == DCEIDL_FILE || kind == DCEIDL_NO_FILE), "file");
    need(dceidl_fault_line(fault, out, sizeof out, &line) == DCEIDL_OK && out[line - 1] == '\n', "line");
    return cause;
}

static void files(dceidl_fault *fault) {
    dceidl_interface interface = DCEIDL_NONE;
    dceidl_cause cause;
    need(compile("[local] interface t {\n  void f([in] other a);\n}\n", &interface, fault) == DCEIDL_REFUSED, "an unknown type");
    cause = cause_of(fault, DCEIDL_FILE, DCEIDL_FILE_UNKNOWN, "other");
    need(cause.line == 2 && cause.column == 15 && !cause.place && !cause.rule, "line and column");
    need(compile("[local] interface t { import \"base.idl\"; void f(); }", &interface, fault) == DCEIDL_REFUSED, "no such import");
    cause_of(fault, DCEIDL_NO_FILE, 0, "");
    need(compile("[local] interface t { void f([in] long a[0]); }", &interface, fault) == DCEIDL_REFUSED, "a rule");
    need(cause_of(fault, DCEIDL_FILE, DCEIDL_FILE_RULE, "").rule > 0, "its number");
    need(dceidl_fault_cause((dceidl_fault *)&interface, &cause) == DCEIDL_EMPTY, "an empty fault");
}

static void values(dceidl_interface *interface, dceidl_fault *fault) {
    static const uint8_t wrong[] = {1, 0, 0, 0, 0, 0, 0, 0, 2, 0, 0, 0, 7, 0, 0, 0};
    dceidl_interface counted = DCEIDL_NONE;
    dceidl_values made = DCEIDL_NONE;
    dceidl_cause cause;
    size_t taken = 9;
    need(dceidl_decode(interface, 0, DCEIDL_IN, DCEIDL_LITTLE, wrong, 3, &made, &taken, fault) == DCEIDL_REFUSED && taken == 9, "too short");
    need(cause_of(fault, DCEIDL_OCTETS, DCEIDL_OCTETS_TRUNCATED, "").place == 3, "place");
    need(dceidl_read(interface, 0, DCEIDL_IN, dceidl_some("values 2\nop ping in\n"), 19, &made, fault) == DCEIDL_REFUSED, "another operation");
    cause = cause_of(fault, DCEIDL_TEXT, DCEIDL_TEXT_OTHER_NAME, "");
    need(cause.line == 2 && cause.column == 4, "line and column of a text");
    need(dceidl_read(interface, 0, DCEIDL_IN, dceidl_some("values 2 op add in a = 1 b = 99999"), 34, &made, fault) == DCEIDL_REFUSED, "no short");
    cause_of(fault, DCEIDL_VALUE, DCEIDL_VALUE_RANGE, "b");
    need(compile("[local] interface t { void f([in, size_is(n)] long a[*], [in] long n); }", &counted, fault) == DCEIDL_OK, "a count");
    need(dceidl_decode(&counted, 0, DCEIDL_IN, DCEIDL_LITTLE, (const uint8_t *)"\1\0\0\0\7\0\0\0\xfe\xff\xff\xff", 12, &made, &taken, fault) == DCEIDL_REFUSED, "a count that disagrees");
    cause = cause_of(fault, DCEIDL_OCTETS, DCEIDL_OCTETS_DISAGREES, "");
    need((int64_t)cause.wanted.low == -2 && cause.wanted.high == UINT64_MAX && cause.found.low == 1 && cause.found.high == 0, "wanted and found");
    dceidl_interface_free(&counted);
    dceidl_values_free(&made);
}

static void fragments(dceidl_fault *fault) {
    uint8_t stub[3000], pieces[4000], out[4000];
    dceidl_call call;
    size_t length, joined, i;
    for (i = 0; i < sizeof stub; i++)
        stub[i] = (uint8_t)(i * 7);
    need(dceidl_split(DCEIDL_IN, 5, DCEIDL_BIG, 77, 1024, stub, sizeof stub, pieces, sizeof pieces, &length) == DCEIDL_OK, "split");
    need(length == 3 * 1024 && dceidl_split(DCEIDL_IN, 5, DCEIDL_BIG, 77, 1024, stub, sizeof stub, pieces, length - 1, &joined) == DCEIDL_SHORT && joined == length,
         "how many octets");
    memset(out, 0xa5, sizeof out);
    need(dceidl_join(DCEIDL_IN, pieces, sizeof pieces, out, sizeof out, &joined, &call, fault) == DCEIDL_OK, "join");
    need(joined == sizeof stub && !memcmp(out, stub, joined), "stub data");
    for (i = joined; i < sizeof out; i++)
        need(out[i] == 0xa5, "octets after the stub data");
    need(call.order == DCEIDL_BIG && call.call == 77 && call.operation == 5 && call.taken == length, "what is stated");
    call.call = 1;
    need(dceidl_join(DCEIDL_IN, pieces, length, out, joined - 1, &i, &call, fault) == DCEIDL_SHORT && i == joined && call.call == 1, "short");
    need(dceidl_join(DCEIDL_OUT, pieces, length, out, sizeof out, &joined, &call, fault) == DCEIDL_REFUSED, "another side");
    need(cause_of(fault, DCEIDL_FRAGMENTS, DCEIDL_FRAGMENTS_KIND, "").place == 2, "place in fragments");
    need(dceidl_join(DCEIDL_IN, pieces, length - 1, out, sizeof out, &joined, &call, fault) == DCEIDL_REFUSED, "cut");
    need(cause_of(fault, DCEIDL_FRAGMENTS, DCEIDL_FRAGMENTS_SHORT, "").place == length - 1, "where it is cut");
    need(dceidl_join(2, pieces, length, out, sizeof out, &joined, &call, fault) == DCEIDL_ARGUMENT, "no side");
    need(dceidl_split(DCEIDL_OUT, 70000, DCEIDL_LITTLE, 1, 65535, stub, 0, pieces, sizeof pieces, &length) == DCEIDL_OK && length == 24, "no stub data");
    need(dceidl_join(DCEIDL_OUT, pieces, length, out, 0, &joined, &call, fault) == DCEIDL_OK && joined == 0 && call.operation == 0, "none joined");
    need(dceidl_split(DCEIDL_IN, 65536, DCEIDL_LITTLE, 1, 1024, stub, 1, pieces, sizeof pieces, &length) == DCEIDL_ARGUMENT, "operation");
    need(dceidl_split(DCEIDL_IN, 0, 2, 1, 1024, stub, 1, pieces, sizeof pieces, &length) == DCEIDL_ARGUMENT, "order");
    need(dceidl_split(2, 0, DCEIDL_LITTLE, 1, 1024, stub, 1, pieces, sizeof pieces, &length) == DCEIDL_ARGUMENT, "side");
    need(dceidl_split(DCEIDL_IN, 0, DCEIDL_LITTLE, 1, 1023, stub, 1, pieces, sizeof pieces, &length) == DCEIDL_ARGUMENT, "too few");
    need(dceidl_split(DCEIDL_IN, 0, DCEIDL_LITTLE, 1, 65536, stub, 1, pieces, sizeof pieces, &length) == DCEIDL_ARGUMENT, "too many");
}

static void labels(dceidl_fault *fault) {
    uint32_t order;
    need(dceidl_label_order((const uint8_t *)"\x10\0\0\0", 4, &order, fault) == DCEIDL_OK && order == DCEIDL_LITTLE, "little");
    need(dceidl_label_order((const uint8_t *)"\0\0\0\0more", 8, &order, fault) == DCEIDL_OK && order == DCEIDL_BIG, "big");
    need(dceidl_label_order((const uint8_t *)"\x11\0\0\0", 4, &order, fault) == DCEIDL_REFUSED && order == DCEIDL_BIG, "EBCDIC");
    cause_of(fault, DCEIDL_LABEL, DCEIDL_LABEL_EBCDIC, "");
    need(dceidl_label_order((const uint8_t *)"\x10\0", 3, &order, fault) == DCEIDL_REFUSED, "a short label");
    cause_of(fault, DCEIDL_LABEL, DCEIDL_LABEL_TRUNCATED, "");
}

static void versions(dceidl_interface *older, dceidl_fault *fault) {
    dceidl_interface newer = DCEIDL_NONE;
    dceidl_cause cause;
    need(dceidl_compare(older, &newer, fault) == DCEIDL_EMPTY && dceidl_compare(&newer, older, fault) == DCEIDL_EMPTY, "no interface");
    need(dceidl_interface_again(older, &newer) == DCEIDL_OK && dceidl_compare(older, &newer, fault) == DCEIDL_OK, "the same");
    compile("[uuid(11111111-2222-3333-4444-555555555555), version(1.1)] interface t { void add([in] long a, [in] short b); }", &newer, fault);
    need(dceidl_compare(older, &newer, fault) == DCEIDL_REFUSED, "older minor");
    cause = cause_of(fault, DCEIDL_NEWER, DCEIDL_VERSION_OLDER_MINOR, "");
    need(cause.wanted.low == 2 && cause.found.low == 1, "minor versions");
    need(dceidl_compare(&newer, older, fault) == DCEIDL_OK, "compatible");
    compile("[uuid(11111111-2222-3333-4444-555555555555), version(1.3)] interface t { void add([in] long a, [in] long b); void ping(); }", &newer, fault);
    need(dceidl_compare(older, &newer, fault) == DCEIDL_REFUSED, "an operation");
    cause_of(fault, DCEIDL_NEWER, DCEIDL_VERSION_DIFFERS, "add");
    dceidl_interface_free(&newer);
}

static const char COUNTED[] = "[local] interface t { unsigned hyper f([in] long n, [out, size_is(n)] long a[*]); }";

/* Values that are made of nodes. */
static void listings(dceidl_interface *interface, dceidl_fault *fault) {
    static const uint8_t wanted[] = {5, 0, 0, 0, 0xfe, 0xff};
    static const uint64_t numbers[] = {7, (uint64_t)-8, 9};
    static const uint32_t cells[] = {0};
    dceidl_node nodes[] = {{.kind = DCEIDL_NUMBER, .number = 5}, {.kind = DCEIDL_NUMBER, .number = (uint64_t)-2}};
    dceidl_node reply[] = {{.kind = DCEIDL_ARRAY, .count = 2, .numbers = 2, .max = 2}, {.kind = DCEIDL_NUMBER, .number = UINT64_MAX}};
    dceidl_listing listing = {nodes, 2, numbers, 0, wanted, 0, cells, 0};
    dceidl_interface counted = DCEIDL_NONE;
    dceidl_values request = DCEIDL_NONE, made = DCEIDL_NONE;
    dceidl_cause cause;
    uint8_t out[64];
    size_t length, node = 9;
    uint32_t type;
    need(dceidl_build(interface, 0, DCEIDL_IN, &listing, &made, &node, fault) == DCEIDL_OK, "a request of nodes");
    need(dceidl_encode(&made, DCEIDL_LITTLE, 1, out, sizeof out, &length, fault) == DCEIDL_OK && length == 6 && !memcmp(out, wanted, 6), "its octets");
    need(dceidl_cell_type(&made, 1, &type) == DCEIDL_ARGUMENT && dceidl_cell_type(&request, 1, &type) == DCEIDL_EMPTY, "no cell");
    nodes[1].number = 70000;
    need(dceidl_build(interface, 0, DCEIDL_IN, &listing, &made, &node, fault) == DCEIDL_REFUSED, "no short in a node");
    cause_of(fault, DCEIDL_VALUE, DCEIDL_VALUE_RANGE, "b");
    nodes[1].kind = DCEIDL_STRUCT;
    need(dceidl_build(interface, 0, DCEIDL_IN, &listing, &made, &node, fault) == DCEIDL_WRONG_NODE && node == 1, "a wrong node");
    listing.node_count = 1;
    need(dceidl_build(interface, 0, DCEIDL_IN, &listing, &made, &node, fault) == DCEIDL_WRONG_NODE && node == 1, "too few nodes");
    nodes[1].kind = DCEIDL_NUMBER;
    listing.node_count = 2;
    listing.number_count = 1;
    need(dceidl_build(interface, 0, DCEIDL_IN, &listing, &made, &node, fault) == DCEIDL_WRONG_NODE && node == 2, "a number that is left");
    listing.number_count = 0;
    listing.cell_count = 1;
    need(dceidl_build(interface, 0, DCEIDL_IN, &listing, &made, &node, fault) == DCEIDL_WRONG_NODE && node == 2, "a cell that is not there");
    need(dceidl_build(interface, 2, DCEIDL_IN, &listing, &made, &node, fault) == DCEIDL_ARGUMENT, "nodes of no operation");
    need(dceidl_build(&counted, 0, DCEIDL_IN, &listing, &made, &node, fault) == DCEIDL_EMPTY, "nodes of no interface");
    need(compile(COUNTED, &counted, fault) == DCEIDL_OK, "a count");
    listing.cell_count = 0;
    listing.node_count = 1;
    nodes[0].number = 2;
    need(dceidl_build(&counted, 0, DCEIDL_IN, &listing, &request, &node, fault) == DCEIDL_OK, "a count of nodes");
    listing.nodes = reply;
    listing.node_count = 2;
    listing.number_count = 2;
    need(dceidl_build_response(&request, &listing, &made, &node, fault) == DCEIDL_OK, "a response of nodes");
    need(dceidl_text(&made, out, sizeof out, &length) == DCEIDL_OK && length > 20 && !memcmp(out + length - 21, "18446744073709551615\n", 21), "a wide number");
    need(dceidl_build_response(&made, &listing, &request, &node, fault) == DCEIDL_ARGUMENT, "a response to a response");
    reply[0].max = reply[0].count = reply[0].numbers = 3;
    need(dceidl_build_response(&request, &listing, &made, &node, fault) == DCEIDL_WRONG_NODE && node == 0, "too few numbers");
    listing.number_count = 3;
    need(dceidl_build_response(&request, &listing, &made, &node, fault) == DCEIDL_REFUSED, "a count that disagrees in nodes");
    cause = cause_of(fault, DCEIDL_VALUE, DCEIDL_VALUE_DISAGREES, "a");
    need(cause.wanted.low == 2 && cause.found.low == 3, "wanted and found in nodes");
    dceidl_interface_free(&counted);
    dceidl_values_free(&request);
    dceidl_values_free(&made);
}

int main(void) {
    dceidl_interface interface = DCEIDL_NONE;
    dceidl_fault fault = DCEIDL_NONE;
    need(compile(OLDER, &interface, &fault) == DCEIDL_OK, "compile");
    files(&fault);
    values(&interface, &fault);
    fragments(&fault);
    labels(&fault);
    versions(&interface, &fault);
    listings(&interface, &fault);
    dceidl_interface_free(&interface);
    dceidl_fault_free(&fault);
    return 0;
}
