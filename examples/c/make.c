/* Makes a request without a text: an array of structs, each with a size and a name, and writes its octets in hexadecimal digits. */
#include "dceidl.h"

#include <stdio.h>
#include <string.h>

static const char IDL[] = "[uuid(1a2b3c4d-0001-0002-0003-040506070810)] interface files {\n"
                          "typedef struct { hyper size; [string, unique] char *name; } entry;\n"
                          "void list([in] long count, [in, size_is(count)] entry entries[]); }";

static int failed(const char *call, uint32_t status) {
    fprintf(stderr, "%s: status %u\n", call, status);
    return 1;
}

/* The values: two entries, of which the first has a name. The type of the name's cell is that to which the member points. */
static uint32_t make(dceidl_interface *interface, dceidl_values *values, size_t *node, dceidl_fault *fault) {
    static const dceidl_node nodes[] = {
        {.kind = DCEIDL_NUMBER, .number = 2},
        {.kind = DCEIDL_ARRAY, .parts = 2, .count = 2, .max = 2},
        {.kind = DCEIDL_STRUCT, .parts = 2},
        {.kind = DCEIDL_NUMBER, .number = 10},
        {.kind = DCEIDL_POINTER, .number = 1},
        {.kind = DCEIDL_STRUCT, .parts = 2},
        {.kind = DCEIDL_NUMBER, .number = (uint64_t)-3},
        {.kind = DCEIDL_POINTER},
        {.kind = DCEIDL_STRING, .max = 7, .length = 6},
    };
    dceidl_listing listing = {nodes, sizeof nodes / sizeof *nodes, (const uint64_t *)nodes, 0, dceidl_some("readme"), 6, NULL, 1};
    uint32_t array, entry, pointer, name, status;
    size_t place;
    listing.cells = &name;
    if ((status = dceidl_root_named(interface, 0, DCEIDL_IN, dceidl_some("entries"), 7, &place, &array)) ||
        (status = dceidl_element_type(interface, array, &entry)) ||
        (status = dceidl_member_named(interface, entry, dceidl_some("name"), 4, &place, &pointer)) ||
        (status = dceidl_element_type(interface, pointer, &name)))
        return status;
    return dceidl_build(interface, 0, DCEIDL_IN, &listing, values, node, fault);
}

int main(void) {
    dceidl_file file = {dceidl_some("files.idl"), 9, dceidl_some(IDL), sizeof IDL - 1};
    dceidl_interface interface = DCEIDL_NONE;
    dceidl_values values = DCEIDL_NONE;
    dceidl_fault fault = DCEIDL_NONE;
    uint8_t octets[256];
    size_t length = 0, node, i;
    uint32_t status = dceidl_compile(&file, 1, 0, &interface, &fault);
    if (!status)
        status = make(&interface, &values, &node, &fault);
    if (!status)
        status = dceidl_encode(&values, DCEIDL_LITTLE, 1, octets, sizeof octets, &length, &fault);
    if (status == DCEIDL_REFUSED && !dceidl_fault_line(&fault, octets, sizeof octets, &length))
        fwrite(octets, 1, length, stderr);
    if (status)
        return failed("make", status);
    for (i = 0; i < length; i++)
        printf("%02x", octets[i]);
    printf("\n");
    dceidl_values_free(&values);
    dceidl_interface_free(&interface);
    dceidl_fault_free(&fault);
    return 0;
}
