/* Reads a request from its octets, and writes the response: the length of the name in it. */
#include "dceidl.h"

#include <stdio.h>
#include <string.h>

static const char IDL[] = "[uuid(1a2b3c4d-0001-0002-0003-040506070809)] interface greeter { long greet([in, string] char *name); }";

/* greet in, little order: maximum count, offset, actual count, and "Ada" with its end mark */
static const uint8_t REQUEST[] = {4, 0, 0, 0, 0, 0, 0, 0, 4, 0, 0, 0, 'A', 'd', 'a', 0};

/* Prints why a call failed. */
static int failed(const char *call, uint32_t status, dceidl_fault *fault) {
    uint8_t line[512];
    size_t length = 0;
    fprintf(stderr, "%s: status %u\n", call, status);
    if (status == DCEIDL_REFUSED && dceidl_fault_line(fault, line, sizeof line, &length) == DCEIDL_OK)
        fwrite(line, 1, length, stderr);
    return 1;
}

static int answer(dceidl_interface *interface, dceidl_values *request, dceidl_values *response, dceidl_fault *fault) {
    dceidl_file file = {dceidl_some("greeter.idl"), 11, dceidl_some(IDL), sizeof IDL - 1};
    uint8_t text[512], octets[512];
    size_t length, taken, i;
    uint32_t status, greet;
    char reply[128], *name, *end;

    if ((status = dceidl_compile(&file, 1, 0, interface, fault)))
        return failed("compile", status, fault);
    if ((status = dceidl_operation_number(interface, dceidl_some("greet"), 5, &greet)))
        return failed("operation", status, fault);
    if ((status = dceidl_decode(interface, greet, DCEIDL_IN, DCEIDL_LITTLE, REQUEST, sizeof REQUEST, request, &taken, fault)))
        return failed("decode", status, fault);
    if ((status = dceidl_text(request, text, sizeof text - 1, &length)))
        return failed("text", status, fault);
    text[length] = 0;
    printf("%s", (char *)text);

    name = strchr((char *)text, '"');
    end = name ? strrchr(name, '"') : NULL;
    snprintf(reply, sizeof reply, "values 2 op greet out return = %d", end ? (int)(end - name - 1) : 0);
    if ((status = dceidl_read_response(request, (uint8_t *)reply, strlen(reply), response, fault)))
        return failed("read", status, fault);
    if ((status = dceidl_encode(response, DCEIDL_LITTLE, 1, octets, sizeof octets, &length, fault)))
        return failed("encode", status, fault);
    for (i = 0; i < length; i++)
        printf("%02x", octets[i]);
    printf("\n");
    return 0;
}

int main(void) {
    dceidl_interface interface = DCEIDL_NONE;
    dceidl_values request = DCEIDL_NONE, response = DCEIDL_NONE;
    dceidl_fault fault = DCEIDL_NONE;
    int status = answer(&interface, &request, &response, &fault);
    dceidl_fault_free(&fault);
    dceidl_values_free(&response);
    dceidl_values_free(&request);
    dceidl_interface_free(&interface);
    return status;
}
