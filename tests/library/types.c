/* Tries the calls on who an interface is and on what it has, each answer of each: prints nothing, and ends with 0 if all are as they should be. */
#include "dceidl.h"

#include <stdio.h>
#include <stdlib.h>
#include <string.h>

static const char IDL[] = "[uuid(01020304-1122-3344-5566-778899aabbcc), version(7.2), pointer_default(unique)] interface who {\n"
                          "typedef enum { RED, BLUE = 4 } colour;\n"
                          "typedef struct { colour tint; hyper much; } pair;\n"
                          "typedef union switch (short k) { case -1: case 2: long a; case 3: ; default: pair p; } pick;\n"
                          "typedef union switch (char k) { case 'x': boolean b; } few;\n"
                          "typedef pipe short shorts;\n"
                          "long f([in, out] long *n, [in, size_is(*n)] pair pairs[*], [in] pick one, [in] few two, [in, string] char *word, [in] byte four[4],\n"
                          "  [out] shorts *all, [out, length_is(*n)] small part[9]); }";

static void need(int holds, const char *what) {
    if (!holds) {
        fprintf(stderr, "%s\n", what);
        exit(1);
    }
}

/* What a type is. */
static dceidl_type type_at(dceidl_interface *interface, uint32_t type) {
    dceidl_type about;
    need(dceidl_type_at(interface, type, &about) == DCEIDL_OK, "a type");
    return about;
}

/* A root, which must have this name. */
static dceidl_root root_at(dceidl_interface *interface, uint32_t side, size_t root, const char *name) {
    dceidl_root about;
    uint8_t out[31];
    size_t length;
    need(dceidl_root_at(interface, 0, side, root, &about, out, sizeof out, &length) == DCEIDL_OK, name);
    need(length == strlen(name) && !memcmp(out, name, length), name);
    return about;
}

static void identity(dceidl_interface *interface) {
    dceidl_interface none = DCEIDL_NONE;
    dceidl_identity who;
    uint8_t out[4096];
    size_t length = 0;
    need(dceidl_interface_identity(&none, &who) == DCEIDL_EMPTY && dceidl_interface_name(&none, out, 9, &length) == DCEIDL_EMPTY, "nobody");
    need(dceidl_interface_identity(interface, &who) == DCEIDL_OK && who.has_uuid == 1 && who.major == 7 && who.minor == 2, "version");
    need(who.uuid.high == UINT64_C(0x0102030411223344) && who.uuid.low == UINT64_C(0x5566778899aabbcc), "uuid");
    need(dceidl_interface_name(interface, out, 3, &length) == DCEIDL_OK && length == 3 && !memcmp(out, "who", 3), "name");
    need(dceidl_interface_name(interface, out, 2, &length) == DCEIDL_SHORT && length == 3, "short name");
    need(dceidl_interface_listing(interface, out, 0, &length) == DCEIDL_SHORT && length > 0 && length < sizeof out, "short listing");
    need(dceidl_interface_listing(interface, out, sizeof out, &length) == DCEIDL_OK && !memcmp(out, "interface who version 7.2 uuid 01020304-", 39), "listing");
    need(dceidl_interface_listing(&none, out, sizeof out, &length) == DCEIDL_EMPTY, "no listing");
}

static void roots(dceidl_interface *interface) {
    dceidl_interface none = DCEIDL_NONE;
    dceidl_root about = {9, 9, 9, 9};
    uint8_t out[31];
    size_t count, length = 5;
    need(dceidl_root_count(interface, 0, DCEIDL_IN, &count) == DCEIDL_OK && count == 6, "roots of the request");
    need(dceidl_root_count(interface, 0, DCEIDL_OUT, &count) == DCEIDL_OK && count == 4, "roots of the response");
    need(dceidl_root_count(interface, 1, DCEIDL_IN, &count) == DCEIDL_ARGUMENT && dceidl_root_count(interface, 0, 2, &count) == DCEIDL_ARGUMENT, "no side");
    need(dceidl_root_count(&none, 0, DCEIDL_IN, &count) == DCEIDL_EMPTY, "no interface");
    about = root_at(interface, DCEIDL_IN, 0, "n");
    need(about.way == DCEIDL_WAY_IN_OUT && !about.is_result && !about.is_pipe && type_at(interface, about.type).kind == DCEIDL_POINTER, "n");
    need(root_at(interface, DCEIDL_IN, 5, "four").way == DCEIDL_WAY_IN, "four");
    about = root_at(interface, DCEIDL_OUT, 2, "return");
    need(about.way == DCEIDL_WAY_OUT && about.is_result && type_at(interface, about.type).number == DCEIDL_NUMBER_LONG, "the result");
    about = root_at(interface, DCEIDL_OUT, 3, "all");
    need(about.is_pipe && !about.is_result && type_at(interface, about.type).kind == DCEIDL_PIPE, "a pipe");
    about.type = 77;
    need(dceidl_root_at(interface, 0, DCEIDL_OUT, 4, &about, out, sizeof out, &length) == DCEIDL_ARGUMENT && about.type == 77, "past the last");
    need(dceidl_root_at(interface, 0, 2, 0, &about, out, sizeof out, &length) == DCEIDL_ARGUMENT, "no side");
    need(dceidl_root_at(interface, 0, DCEIDL_IN, 4, &about, out, 3, &length) == DCEIDL_SHORT && length == 4 && about.type == 77, "short");
    need(dceidl_root_at(&none, 0, DCEIDL_IN, 0, &about, out, 3, &length) == DCEIDL_EMPTY, "no root");
}

static void numbers(dceidl_interface *interface) {
    static const uint32_t octets[] = {1, 1, 1, 1, 1, 2, 2, 4, 4, 8, 8};
    dceidl_interface none = DCEIDL_NONE;
    dceidl_identity who;
    dceidl_type about;
    uint32_t type;
    need(dceidl_interface_identity(interface, &who) == DCEIDL_OK, "types");
    for (type = 0; type < 11; ++type) {
        about = type_at(interface, type);
        need(about.kind == DCEIDL_NUMBER && about.number == type + 1 && about.octets == octets[type] && !about.parts, "a primitive");
        need(about.is_signed == (type == 3 || type == 5 || type == 7 || type == 9), "its sign");
    }
    need(type_at(interface, 11).kind == DCEIDL_CONTEXT, "a context handle");
    need(dceidl_type_at(interface, who.types - 1, &about) == DCEIDL_OK && dceidl_type_at(interface, who.types, &about) == DCEIDL_ARGUMENT, "the last type");
    need(dceidl_type_at(&none, 0, &about) == DCEIDL_EMPTY, "no types");
}

static void parts(dceidl_interface *interface) {
    dceidl_interface none = DCEIDL_NONE;
    dceidl_type about = type_at(interface, root_at(interface, DCEIDL_IN, 1, "pairs").type);
    uint32_t pair = about.part, tint = 0;
    uint64_t value = 9;
    uint8_t out[31];
    size_t length;
    need(about.kind == DCEIDL_ARRAY && !about.bound && !about.is_varying, "a conformant array");
    about = type_at(interface, pair);
    need(about.kind == DCEIDL_STRUCT && about.parts == 2, "a struct");
    need(dceidl_member_at(interface, pair, 0, &tint, out, 31, &length) == DCEIDL_OK && length == 4 && !memcmp(out, "tint", 4), "a member");
    need(dceidl_member_at(interface, pair, 1, &tint, out, 3, &length) == DCEIDL_SHORT && length == 4, "short");
    need(dceidl_member_at(interface, pair, 2, &tint, out, 31, &length) == DCEIDL_ARGUMENT, "no member");
    need(dceidl_member_at(interface, 0, 0, &tint, out, 31, &length) == DCEIDL_ARGUMENT, "no struct");
    need(dceidl_member_at(&none, pair, 0, &tint, out, 31, &length) == DCEIDL_EMPTY, "no interface");
    about = type_at(interface, tint);
    need(about.kind == DCEIDL_NUMBER && about.number == DCEIDL_NUMBER_ENUM && about.octets == 2 && about.is_signed && about.parts == 2, "an enumerated type");
    need(dceidl_enumerator_at(interface, tint, 1, &value) == DCEIDL_OK && value == 4, "an enumerator");
    need(dceidl_enumerator_at(interface, tint, 2, &value) == DCEIDL_ARGUMENT && value == 4, "no enumerator");
    need(dceidl_enumerator_at(interface, pair, 0, &value) == DCEIDL_ARGUMENT, "not enumerated");
    need(dceidl_enumerator_at(&none, tint, 0, &value) == DCEIDL_EMPTY, "no interface");
    about = type_at(interface, root_at(interface, DCEIDL_IN, 4, "word").type);
    need(about.kind == DCEIDL_POINTER && about.pointer == DCEIDL_REF, "a reference pointer");
    need(type_at(interface, about.part).kind == DCEIDL_STRING && type_at(interface, about.part).part == 1, "to a string of chars");
    about = type_at(interface, root_at(interface, DCEIDL_IN, 5, "four").type);
    need(about.kind == DCEIDL_ARRAY && about.bound == 4 && !about.is_varying && about.part == 2, "a fixed array");
    about = type_at(interface, root_at(interface, DCEIDL_OUT, 1, "part").type);
    need(about.kind == DCEIDL_ARRAY && about.bound == 9 && about.is_varying == 1 && about.part == 3, "a varying array");
}

/* An arm, which must have this name. */
static dceidl_arm arm_at(dceidl_interface *interface, uint32_t type, size_t arm, const char *name) {
    dceidl_arm about;
    uint8_t out[31];
    size_t length;
    need(dceidl_arm_at(interface, type, arm, &about, out, sizeof out, &length) == DCEIDL_OK, name);
    need(length == strlen(name) && !memcmp(out, name, length) && about.has_name == (length > 0), name);
    return about;
}

static void arms(dceidl_interface *interface) {
    dceidl_interface none = DCEIDL_NONE;
    uint32_t pick = root_at(interface, DCEIDL_IN, 2, "one").type, few = root_at(interface, DCEIDL_IN, 3, "two").type;
    dceidl_type about = type_at(interface, pick);
    dceidl_arm arm;
    uint8_t out[31];
    size_t at = 9, length;
    need(about.kind == DCEIDL_UNION && about.parts == 4 && about.has_default && about.is_encapsulated && about.part == 5, "a union");
    need(type_at(interface, few).parts == 1 && !type_at(interface, few).has_default && type_at(interface, few).part == 1, "another");
    arm = arm_at(interface, pick, 0, "a");
    need((int64_t)arm.label == -1 && !arm.is_default && arm.has_type && arm.type == 7, "the first label");
    need(arm_at(interface, pick, 1, "a").label == 2, "the second label");
    arm = arm_at(interface, pick, 2, "");
    need(arm.label == 3 && !arm.has_type && !arm.type, "an empty arm");
    arm = arm_at(interface, pick, 3, "p");
    need(arm.is_default == 1 && !arm.label && arm.has_type && type_at(interface, arm.type).kind == DCEIDL_STRUCT, "the default");
    need(dceidl_arm_at(interface, pick, 4, &arm, out, 31, &length) == DCEIDL_ARGUMENT, "no arm");
    need(dceidl_arm_at(interface, arm.type, 0, &arm, out, 31, &length) == DCEIDL_ARGUMENT, "no union");
    need(dceidl_arm_at(interface, pick, 0, &arm, out, 0, &length) == DCEIDL_SHORT && length == 1, "short");
    need(dceidl_arm_at(&none, pick, 0, &arm, out, 31, &length) == DCEIDL_EMPTY, "no interface");
    need(dceidl_arm_selected(interface, pick, (uint64_t)-1, &at) == DCEIDL_OK && at == 0, "-1");
    need(dceidl_arm_selected(interface, pick, 3, &at) == DCEIDL_OK && at == 2, "3");
    need(dceidl_arm_selected(interface, pick, 4, &at) == DCEIDL_OK && at == 3, "any other");
    need(dceidl_arm_selected(interface, few, 'x', &at) == DCEIDL_OK && at == 0, "x");
    need(dceidl_arm_selected(interface, few, 'y', &at) == DCEIDL_ABSENT && at == 0, "y");
    need(dceidl_arm_selected(interface, 0, 0, &at) == DCEIDL_ARGUMENT && dceidl_arm_selected(&none, pick, 0, &at) == DCEIDL_EMPTY, "no union");
}

int main(void) {
    dceidl_file file = dceidl_file_of("who.idl", IDL);
    dceidl_interface interface = DCEIDL_NONE;
    dceidl_fault fault = DCEIDL_NONE;
    uint8_t line[256], word[31];
    size_t length;
    if (dceidl_compile(&file, 1, 0, &interface, &fault) == DCEIDL_REFUSED && dceidl_fault_line(&fault, line, sizeof line, &length) == DCEIDL_OK)
        fwrite(line, 1, length, stderr);
    identity(&interface);
    roots(&interface);
    numbers(&interface);
    parts(&interface);
    arms(&interface);
    need(dceidl_fault_reason(&fault, word, sizeof word, &length) == DCEIDL_EMPTY, "no fault");
    file = dceidl_file_of("who.idl", "[local] interface t { void f([in] long a[0]); }");
    need(dceidl_compile(&file, 1, 0, &interface, &fault) == DCEIDL_REFUSED, "a rule");
    need(dceidl_fault_reason(&fault, word, sizeof word, &length) == DCEIDL_OK && length == 4 && !memcmp(word, "Rule", 4), "its word");
    need(dceidl_fault_reason(&fault, word, 3, &length) == DCEIDL_SHORT && length == 4, "short word");
    dceidl_interface_free(&interface);
    dceidl_fault_free(&fault);
    return 0;
}
