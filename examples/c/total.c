/* Reads a request without its text: the sum of the sizes in a list of files, and their names. */
#include "dceidl.h"

#include <stdio.h>
#include <string.h>

static const char IDL[] = "[uuid(1a2b3c4d-0001-0002-0003-040506070810)] interface files {\n"
                          "typedef struct { hyper size; [string, unique] char *name; } entry;\n"
                          "void list([in] long count, [in, size_is(count)] entry entries[]); }";

static const char TEXT[] = "values 2 op list in count = 3 entries = [{size = 10, name = @1}, {size = -3, name = null}, {size = 35, name = @2}]\n"
                           "@1 = 7:\"readme\" @2 = 5:\"data\"";

/* Where the list is among the roots, and the members in one of its entries. A program asks for these once, and reads many requests. */
struct places {
    size_t entries, size, name;
};

static uint32_t find(dceidl_interface *interface, struct places *places) {
    uint32_t list, entry, type, status;
    if ((status = dceidl_root_named(interface, 0, DCEIDL_IN, dceidl_some("entries"), 7, &places->entries, &list)))
        return status;
    if ((status = dceidl_element_type(interface, list, &entry)))
        return status;
    if ((status = dceidl_member_named(interface, entry, dceidl_some("size"), 4, &places->size, &type)))
        return status;
    return dceidl_member_named(interface, entry, dceidl_some("name"), 4, &places->name, &type);
}

/* A member of an entry. */
static uint32_t member(dceidl_nodes *nodes, size_t entry, size_t index, dceidl_node *node) {
    size_t at;
    uint32_t status = dceidl_node_part(nodes, entry, index, &at);
    return status ? status : dceidl_node_at(nodes, at, node);
}

/* Prints the name that a pointer points to. */
static uint32_t print_name(dceidl_nodes *nodes, const dceidl_node *pointer) {
    uint8_t name[64];
    size_t at, length;
    uint32_t status;
    if (pointer->number == 0)
        return printf("(none)"), 0;
    if ((status = dceidl_cell_node(nodes, (uint32_t)pointer->number, &at)) || (status = dceidl_node_octets(nodes, at, name, sizeof name, &length)))
        return status;
    printf("%.*s", (int)length, (char *)name);
    return 0;
}

static uint32_t sum(dceidl_nodes *nodes, const struct places *places) {
    dceidl_node array, size, name;
    int64_t total = 0;
    uint32_t status, i;
    size_t at;
    if ((status = dceidl_root_node(nodes, places->entries, &at)) || (status = dceidl_node_at(nodes, at, &array)))
        return status;
    for (i = 0, at++; i < array.parts; i++) {
        if ((status = member(nodes, at, places->size, &size)) || (status = member(nodes, at, places->name, &name)) || (status = print_name(nodes, &name)))
            return status;
        total += (int64_t)size.number;
        printf(" %lld\n", (long long)(int64_t)size.number);
        if ((status = dceidl_node_after(nodes, at, &at)))
            return status;
    }
    printf("total %lld\n", (long long)total);
    return 0;
}

int main(void) {
    dceidl_file file = {dceidl_some("files.idl"), 9, dceidl_some(IDL), sizeof IDL - 1};
    dceidl_interface interface = DCEIDL_NONE;
    dceidl_values values = DCEIDL_NONE;
    dceidl_nodes nodes = DCEIDL_NONE;
    dceidl_fault fault = DCEIDL_NONE;
    struct places places;
    uint8_t line[512];
    size_t length;
    uint32_t status = dceidl_compile(&file, 1, 0, &interface, &fault);
    if (!status)
        status = find(&interface, &places);
    if (!status)
        status = dceidl_read(&interface, 0, DCEIDL_IN, dceidl_some(TEXT), sizeof TEXT - 1, &values, &fault);
    if (!status)
        status = dceidl_nodes_of(&values, &nodes);
    if (!status)
        status = sum(&nodes, &places);
    if (status == DCEIDL_REFUSED && !dceidl_fault_line(&fault, line, sizeof line, &length))
        fwrite(line, 1, length, stderr);
    else if (status)
        fprintf(stderr, "status %u\n", status);
    dceidl_nodes_free(&nodes);
    dceidl_values_free(&values);
    dceidl_interface_free(&interface);
    dceidl_fault_free(&fault);
    return status != DCEIDL_OK;
}
