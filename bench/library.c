/* Measures the library: bench-library IDL OPERATION ROUNDS < OCTETS

   The octets, of the inputs of an operation in little order, are decoded so many times, and then their values are encoded as often, into a buffer that the
   octets are then copied to, as crates/bench_ndr does. It prints how many nanoseconds of the processor the fastest of each took, how many a round took on
   average with the values let go, and with all their nodes read before that, the fastest writing of their text, and how many an encoding took on average. */
#include "dceidl.h"

#include <stdio.h>
#include <stdlib.h>
#include <string.h>
#include <time.h>

/* The processor time so far, in nanoseconds. */
static double now(void) {
    struct timespec at;
    clock_gettime(CLOCK_PROCESS_CPUTIME_ID, &at);
    return at.tv_sec * 1e9 + at.tv_nsec;
}

static void need(int holds, const char *what) {
    if (!holds) {
        fprintf(stderr, "%s\n", what);
        exit(1);
    }
}

static uint8_t *content(FILE *file, size_t *length) {
    size_t room = 1 << 26;
    uint8_t *octets = malloc(room);
    need(file && octets, "no file or memory");
    *length = fread(octets, 1, room, file);
    return octets;
}

static double lesser(double one, double other) {
    return one < other ? one : other;
}

/* Reads all nodes of values, and copies their strings. */
static void read_nodes(dceidl_values *values, dceidl_nodes *nodes, uint8_t *out, size_t room) {
    dceidl_node node;
    size_t number, length;
    need(dceidl_nodes_of(values, nodes) == DCEIDL_OK, "nodes");
    for (number = 0; dceidl_node_at(nodes, number, &node) == DCEIDL_OK; number++)
        need(node.kind != DCEIDL_STRING || dceidl_node_octets(nodes, number, out, room, &length) == DCEIDL_OK, "string");
}

/* How many nanoseconds the fastest of some rounds takes to write the text of values. */
static double text_time(dceidl_values *values, unsigned long rounds) {
    double least = 1e18, began;
    size_t room, length;
    uint8_t *text;
    need(dceidl_text(values, (uint8_t *)&room, 0, &room) == DCEIDL_SHORT, "length of the text");
    text = malloc(room);
    need(text != NULL, "memory");
    for (; rounds > 0; rounds--) {
        began = now();
        need(dceidl_text(values, text, room, &length) == DCEIDL_OK && length == room, "text");
        least = lesser(least, now() - began);
    }
    free(text);
    return least;
}

int main(int argc, char **argv) {
    dceidl_interface interface = DCEIDL_NONE;
    dceidl_values values = DCEIDL_NONE;
    dceidl_nodes nodes = DCEIDL_NONE;
    dceidl_fault fault = DCEIDL_NONE;
    double copy = 1e18, decode = 1e18, encode = 1e18, began, all, read, text, encoded;
    dceidl_file file = {dceidl_some("bench.idl"), 9, NULL, 0};
    size_t length, taken, written;
    uint8_t *octets, *out;
    unsigned long operation, rounds, i;
    need(argc == 4, "IDL OPERATION ROUNDS");
    free(malloc(33500000)); /* so that the C library keeps the memory of a round for the next, as in a program that has run for long */
    operation = strtoul(argv[2], NULL, 10);
    rounds = strtoul(argv[3], NULL, 10);
    file.text = content(fopen(argv[1], "rb"), &file.text_length);
    need(dceidl_compile(&file, 1, 0, &interface, &fault) == DCEIDL_OK, "compile");
    octets = content(stdin, &length);
    out = malloc(length);
    memset(out, 1, length);
    for (i = 0; i < rounds; i++) {
        began = now();
        need(dceidl_decode(&interface, operation, DCEIDL_IN, DCEIDL_LITTLE, octets, length, &values, &taken, &fault) == DCEIDL_OK, "decode");
        decode = lesser(decode, now() - began);
        dceidl_values_free(&values);
    }
    need(dceidl_decode(&interface, operation, DCEIDL_IN, DCEIDL_LITTLE, octets, length, &values, &taken, &fault) == DCEIDL_OK, "decode");
    for (i = 0; i < rounds; i++) {
        began = now();
        need(dceidl_encode(&values, DCEIDL_LITTLE, 1, out, length, &written, &fault) == DCEIDL_OK && written == length, "encode");
        encode = lesser(encode, now() - began);
        began = now();
        memcpy(out, octets, length);
        __asm__ volatile("" ::: "memory");
        copy = lesser(copy, now() - began);
    }
    began = now();
    for (i = 0; i < rounds; i++)
        need(dceidl_encode(&values, DCEIDL_LITTLE, 1, out, length, &written, &fault) == DCEIDL_OK, "encode");
    encoded = (now() - began) / (double)rounds;
    dceidl_values_free(&values);
    began = now();
    for (i = 0; i < rounds; i++) {
        need(dceidl_decode(&interface, operation, DCEIDL_IN, DCEIDL_LITTLE, octets, length, &values, &taken, &fault) == DCEIDL_OK, "decode");
        dceidl_values_free(&values);
    }
    all = (now() - began) / (double)rounds;
    began = now();
    for (i = 0; i < rounds; i++) {
        need(dceidl_decode(&interface, operation, DCEIDL_IN, DCEIDL_LITTLE, octets, length, &values, &taken, &fault) == DCEIDL_OK, "decode");
        read_nodes(&values, &nodes, out, length);
        dceidl_values_free(&values);
    }
    read = (now() - began) / (double)rounds;
    need(dceidl_decode(&interface, operation, DCEIDL_IN, DCEIDL_LITTLE, octets, length, &values, &taken, &fault) == DCEIDL_OK, "decode");
    text = text_time(&values, rounds < 8 ? rounds : 8);
    dceidl_values_free(&values);
    dceidl_nodes_free(&nodes);
    dceidl_interface_free(&interface);
    printf("copy %.0f ns, decode %.0f ns, encode %.0f ns, decoded and let go %.0f ns, with its nodes read %.0f ns, text %.0f ns, encoded %.0f ns\n", copy, decode,
           encode, all, read, text, encoded);
    return 0;
}
