/* dceidl.h - values in NDR (C706, chapter 14) of interfaces in DCE IDL (C706, chapter 4), for programs in C and in languages that call C.

   The calls print nothing, never exit or abort, and keep no state of their own. Memory comes from malloc, realloc and free of the program; where it is
   refused, a call answers DCEIDL_MEMORY.

   Handles. A program keeps its handles itself. Each begins as DCEIDL_NONE, which holds nothing, and is used by its address. A call that fills a handle
   frees what it held before. A handle that was freed holds nothing, so it may be freed twice and used again. Values keep what they need of their
   interface: either may be freed first. DCEIDL_NONE is an initialiser; in memory that is allocated, write `*values = (dceidl_values)DCEIDL_NONE`, or
   set it all to zero octets, which is the same.

   Answers. Each call but the frees answers a status. If a handle that a call reads from holds nothing, the call answers DCEIDL_EMPTY before it looks at
   anything else; so it does if the handle holds something of another kind, which only a cast can bring about, as of a dceidl_values to a dceidl_nodes.
   Unless the answer is DCEIDL_OK, what a call would fill, set or write is as before, except that DCEIDL_SHORT sets the length or count
   that is needed. The number of a wrong node is set at DCEIDL_WRONG_NODE alone, and the fault is filled at DCEIDL_REFUSED alone: after any other answer
   it still is that of an earlier call.

   Buffers. At DCEIDL_OK a call has written as many octets or numbers to the front of a buffer as the length or count says, and the rest of it is as before.
   To learn how long a buffer must be, call with room 0 and the address of any octet: the length is set, and the answer is DCEIDL_SHORT, or
   DCEIDL_OK where the length is 0.

   What a program must do; otherwise the behaviour is undefined:
   - A pointer is never null and is valid for its length, for a length of 0 too: dceidl_some makes such a pointer to octets of a null one. Where there
     are no nodes, numbers or cells, any object of their type will do.
   - No two arguments of a call overlap, unless both are const.
   - A handle is DCEIDL_NONE before its first use, and its parts are neither read nor written. It may be moved, as realloc or memcpy moves the struct that
     has it, if the old place is never used again, not even to free it; two places never hold the same handle.
   - At each moment at most one thread is in a call with a handle of an interface, or of its values, or of another handle that dceidl_interface_again
     filled from it. Which thread that is may change, if the program orders the calls, as by a lock. Nodes, items and faults belong to no interface: of
     these each handle is used by one thread at a time.
   - No call is made in a signal handler, or in the child that a process with threads has forked.
   Everything else is answered by a status: octets and texts of any content, numbers out of range, empty handles, handles of the wrong kind. */
#ifndef DCEIDL_H
#define DCEIDL_H

#include <stddef.h>
#include <stdint.h>
#include <string.h>

#ifdef __cplusplus
extern "C" {
#endif

#define DCEIDL_VERSION 0x000100u /* 0.1.0: an octet each for the major, minor and patch number */

enum dceidl_status {
    DCEIDL_OK = 0,
    DCEIDL_EMPTY = 1,    /* a handle holds nothing, or something of another kind */
    DCEIDL_ARGUMENT = 2, /* a number is out of range, as an operation, a side, an order, a chunk, a file, a type, a node; or a type, a node or values are of
                            a kind that the call does not take; or the name of a file or of an operation is not UTF-8 */
    DCEIDL_MEMORY = 3,   /* out of memory */
    DCEIDL_SHORT = 4,    /* the buffer has too little room; the length that is needed is set */
    DCEIDL_REFUSED = 5,  /* the files, octets, text or values are refused; the fault says why */
    DCEIDL_ABSENT = 6,   /* no operation, root or member has that name; no root or member has one that is not UTF-8 */
    DCEIDL_WRONG_NODE = 7 /* a node of a listing is wrong; its number is set */
};

enum dceidl_kind {
    DCEIDL_NO_FILE = 1,   /* a file that is due is not among those given */
    DCEIDL_FILE = 2,      /* a file, at a line and column */
    DCEIDL_OCTETS = 3,    /* octets, at a place */
    DCEIDL_TEXT = 4,      /* a text, at a line and column */
    DCEIDL_VALUE = 5,     /* a value, at a path */
    DCEIDL_TOO_LONG = 6,  /* values, whose octets would be more than 67,108,864 */
    DCEIDL_FRAGMENTS = 7, /* fragments, at a place */
    DCEIDL_LABEL = 8,     /* a format label */
    DCEIDL_NEWER = 9      /* a newer version of an interface */
};

/* Why: the hundreds are the kind. Where the kind says all, the reason is 0. The line that dceidl_fault_line writes has the reason as a word, as
   `BadOctet`, or the one in backquotes here; `dceidl why WORD`, a command of the program, explains it with an example. The pages of docs/ are in
   the source tree, not among what is installed. */
enum dceidl_reason {
    /* a file (docs/IDL.md) */
    DCEIDL_FILE_BAD_OCTET = 201,       /* an octet that cannot be there */
    DCEIDL_FILE_OPEN_COMMENT = 202,    /* a comment without an end */
    DCEIDL_FILE_OPEN_TEXT = 203,       /* a literal without its closing quote */
    DCEIDL_FILE_LONG_NAME = 204,       /* a word of more than 31 octets */
    DCEIDL_FILE_BAD_NUMBER = 205,      /* letters and digits that are no number */
    DCEIDL_FILE_TOO_LONG = 206,        /* more than 1,048,576 octets */
    DCEIDL_FILE_SYNTAX = 207,          /* no file of the language goes on so */
    DCEIDL_FILE_DEEP = 208,            /* brackets or operators nested more than 64 deep */
    DCEIDL_FILE_LEFT_OUT = 209,        /* `Banned`: a word of C706 that the compiler leaves out, as float; it is the name */
    DCEIDL_FILE_UNKNOWN = 210,         /* an unknown name */
    DCEIDL_FILE_TWICE = 211,           /* a name that is declared twice */
    DCEIDL_FILE_IMPORT_CYCLE = 212,    /* files that import each other */
    DCEIDL_FILE_TOO_MANY = 213,        /* the 65th file */
    DCEIDL_FILE_OUT_OF_RANGE = 214,    /* a value of an expression out of range */
    DCEIDL_FILE_ZERO_DIVISOR = 215,    /* a division by zero */
    DCEIDL_FILE_NOT_CONSTANT = 216,    /* `NotConst`: a name that is no integer constant */
    DCEIDL_FILE_RULE = 217,            /* `Rule N`: a rule that is broken; its number is set */
    /* octets (docs/NDR.md) */
    DCEIDL_OCTETS_TRUNCATED = 301,     /* they end too early; the place is how many there are */
    DCEIDL_OCTETS_TOO_LONG = 302,      /* the values would end after octet 67,108,864 */
    DCEIDL_OCTETS_ENUM_VALUE = 303,    /* no enumerator */
    DCEIDL_OCTETS_PAST_BOUND = 304,    /* offset and actual count end past the maximum count */
    DCEIDL_OCTETS_TEXT_OFFSET = 305,   /* the offset of a string is not 0 */
    DCEIDL_OCTETS_TEXT_EMPTY = 306,    /* the actual count of a string is 0 */
    DCEIDL_OCTETS_TEXT_UNENDED = 307,  /* the last element of a string is not zero */
    DCEIDL_OCTETS_TEXT_ZERO = 308,     /* an earlier element of a string is zero */
    DCEIDL_OCTETS_NO_ARM = 309,        /* a tag selects no arm */
    DCEIDL_OCTETS_OTHER_TYPE = 310,    /* a full pointer's number names a referent of another type */
    DCEIDL_OCTETS_DISAGREES = 311,     /* an attribute states another number: wanted and found are set */
    /* a text (docs/TEXT.md) */
    DCEIDL_TEXT_TOO_LONG = 401,        /* more than 536,870,912 octets */
    DCEIDL_TEXT_BAD_TOKEN = 402,       /* no token begins here */
    DCEIDL_TEXT_EXPECTED = 403,        /* another token is due here */
    DCEIDL_TEXT_OTHER_NAME = 404,      /* another name is due here */
    DCEIDL_TEXT_OUT_OF_ORDER = 405,    /* a cell that has not the next number */
    DCEIDL_TEXT_UNNAMED = 406,         /* a cell that no pointer before it names */
    /* a value (docs/TEXT.md) */
    DCEIDL_VALUE_SHAPE = 501,          /* not the form of its type */
    DCEIDL_VALUE_RANGE = 502,          /* a number or tag that is no value of its type */
    DCEIDL_VALUE_NULL_REF = 503,       /* a reference pointer that is null */
    DCEIDL_VALUE_NO_CELL = 504,        /* a pointer names a cell that is not there */
    DCEIDL_VALUE_CELL_TYPE = 505,      /* a pointer names a cell of another type */
    DCEIDL_VALUE_BOUND = 506,          /* counts that have not the form of the type */
    DCEIDL_VALUE_ZERO = 507,           /* a text holds a zero octet */
    DCEIDL_VALUE_NO_ARM = 508,         /* a tag selects no arm */
    DCEIDL_VALUE_SHARED = 509,         /* two pointers name one cell, and not both are full */
    DCEIDL_VALUE_UNREACHED = 510,      /* nothing that is reached names the cell */
    DCEIDL_VALUE_DISAGREES = 511,      /* an attribute states another number: wanted and found are set */
    /* fragments (C706, section 12.6) */
    DCEIDL_FRAGMENTS_SHORT = 701,      /* the octets end before the next fragment is whole; the place is how many there are */
    DCEIDL_FRAGMENTS_VERSION = 702,    /* the major version is not 5 */
    DCEIDL_FRAGMENTS_KIND = 703,       /* another type of PDU */
    DCEIDL_FRAGMENTS_FLAGS = 704,      /* the flag of a first fragment is not on the first alone */
    DCEIDL_FRAGMENTS_LABEL = 705,      /* the format label is refused */
    DCEIDL_FRAGMENTS_OTHER_ORDER = 706,     /* another order of octets than that of the first */
    DCEIDL_FRAGMENTS_LENGTH = 707,     /* the fragment is shorter than its header */
    DCEIDL_FRAGMENTS_AUTH = 708,       /* authentication data */
    DCEIDL_FRAGMENTS_OTHER_CALL = 709, /* another call id than that of the first */
    DCEIDL_FRAGMENTS_OTHER_OPERATION = 710, /* another operation than that of the first */
    DCEIDL_FRAGMENTS_EMPTY = 711,      /* `EmptyPiece`: no stub data, and it is not the last */
    DCEIDL_FRAGMENTS_STUB_LONG = 712,  /* more than 67,108,864 octets of stub data */
    /* a format label (C706, section 14.1) */
    DCEIDL_LABEL_BAD_ORDER = 801,      /* no known order of octets */
    DCEIDL_LABEL_EBCDIC = 802,         /* EBCDIC */
    DCEIDL_LABEL_BAD_CHARSET = 803,    /* no known characters */
    DCEIDL_LABEL_TRUNCATED = 804,      /* fewer than four octets */
    /* a newer version: wanted is of the older one, found of the newer */
    DCEIDL_VERSION_OTHER_UUID = 901,   /* the UUIDs differ, or one is absent */
    DCEIDL_VERSION_OTHER_MAJOR = 902,  /* the major versions differ */
    DCEIDL_VERSION_OLDER_MINOR = 903,  /* the minor version is less */
    DCEIDL_VERSION_FEWER = 904,        /* fewer operations */
    DCEIDL_VERSION_DIFFERS = 905       /* an operation differs; it is the name */
};

enum dceidl_side { DCEIDL_IN = 0, DCEIDL_OUT = 1 };      /* request, response */
enum dceidl_order { DCEIDL_LITTLE = 0, DCEIDL_BIG = 1 }; /* the order of octets in numbers */

typedef struct {
    void *at_;
    uintptr_t full_;
} dceidl_handle_;

/* An interface with what is prepared for its octets; values of a side of an operation; the nodes of values; the items of octets; why a call was
   refused. They differ only in their names, so that a compiler does not take one for another. */
typedef struct {
    dceidl_handle_ handle_;
} dceidl_interface;
typedef struct {
    dceidl_handle_ handle_;
} dceidl_values;
typedef struct {
    dceidl_handle_ handle_;
} dceidl_nodes;
typedef struct {
    dceidl_handle_ handle_;
} dceidl_items;
typedef struct {
    dceidl_handle_ handle_;
} dceidl_fault;

#define DCEIDL_NONE                                                                                                                                   \
    {                                                                                                                                                 \
        { NULL, 0 }                                                                                                                                   \
    }

/* A number of 128 bits: its lower 64 bits and its upper ones. A signed one is in two's complement; where it fits in 64 bits, (int64_t)low is the number. */
typedef struct {
    uint64_t low;
    uint64_t high;
} dceidl_number;

/* Why a call was refused, in numbers. What does not apply is 0. */
typedef struct {
    uint32_t kind;   /* of enum dceidl_kind */
    uint32_t reason; /* of enum dceidl_reason */
    uint32_t rule;   /* the number of the rule of docs/IDL.md that a file breaks */
    uint32_t place;  /* OCTETS, FRAGMENTS: the number of the octet that is refused, from 0; where octets are missing, how many there are */
    uint64_t line;   /* FILE, TEXT: the line and column, from 1, in octets */
    uint64_t column;
    /* wanted and found. DISAGREES: the number that an attribute states, and the one that is there, both signed. TOO_LONG: the most octets that are allowed,
       and how many they would be. NEWER, for other numbers of a version or fewer operations: that of the older one, and that of the newer. */
    dceidl_number wanted;
    dceidl_number found;
} dceidl_cause;

/* What the fragments of a call state for all of it. */
typedef struct {
    uint32_t order;     /* of enum dceidl_order */
    uint32_t call;      /* the call id */
    uint32_t operation; /* of a request; 0 of a response */
    uint32_t taken;     /* how many octets the fragments have */
} dceidl_call;

/* A file in memory. */
typedef struct {
    const uint8_t *name;
    size_t name_length;
    const uint8_t *text;
    size_t text_length;
} dceidl_file;

/* A pointer that is not null, also where there are no octets. */
static inline const uint8_t *dceidl_some(const void *octets) {
    static const uint8_t none = 0;
    return octets ? (const uint8_t *)octets : &none;
}

/* A file whose name and text are strings of C, which end with a zero octet; these stay where they are. */
static inline dceidl_file dceidl_file_of(const char *name, const char *text) {
    dceidl_file file;
    file.name = (const uint8_t *)name;
    file.name_length = strlen(name);
    file.text = (const uint8_t *)text;
    file.text_length = strlen(text);
    return file;
}

/* DCEIDL_VERSION of the library. */
uint32_t dceidl_version(void);

/* ---- Interfaces ---- */

/* Compiles files[0] with what it imports, all among the files. A file is found by its name as `import` writes it, octet for octet, folders included:
   `import "common/wide.idl"` asks for a file of the name `common/wide.idl`, and no file `wide.idl` will do. `acf` is the number of the attribute
   configuration file among them, or 0 for none. Of two files of one name the later counts. The texts are read during the call only. The language is that of
   docs/IDL.md; some of C706 is left out, such as float and double, and refused as DCEIDL_FILE_LEFT_OUT.
   REFUSED: the fault is the first of the files, or names the first that was due and is not among them. ARGUMENT, before anything is compiled: count is 0,
   acf is not less than count, or the name of a file is not UTF-8. MEMORY. */
uint32_t dceidl_compile(const dceidl_file *files, size_t count, size_t acf, dceidl_interface *interface, dceidl_fault *fault);

/* The languages of files of IDL: that of dceidl_compile, and the same with the words `any_size` and `any_length` (docs/WINDOWS.md). */
#define DCEIDL_C706 0u
#define DCEIDL_WINDOWS 1u

/* The same as dceidl_compile, with the files of IDL in a language. ARGUMENT also where there is no such language. */
uint32_t dceidl_compile_language(uint32_t language, const dceidl_file *files, size_t count, size_t acf, dceidl_interface *interface,
                                 dceidl_fault *fault);

/* Fills another handle with the same interface, in constant time. EMPTY, MEMORY. */
uint32_t dceidl_interface_again(dceidl_interface *interface, dceidl_interface *again);

void dceidl_interface_free(dceidl_interface *interface);

/* The number of operations. Their numbers begin with 0, in the order of the file. EMPTY. */
uint32_t dceidl_operation_count(dceidl_interface *interface, size_t *count);

/* The number of the operation of a name. EMPTY; ARGUMENT: the name is not UTF-8; ABSENT. */
uint32_t dceidl_operation_number(dceidl_interface *interface, const uint8_t *name, size_t length, uint32_t *operation);

/* Writes the name of an operation, without an end mark, and sets its length, at most 31. EMPTY; ARGUMENT: no such operation; SHORT. */
uint32_t dceidl_operation_name(dceidl_interface *interface, uint32_t operation, uint8_t *out, size_t room, size_t *length);

/* Who an interface is. */
typedef struct {
    uint32_t has_uuid;  /* 1 if the file has a UUID, 0 if not */
    uint32_t major;     /* the version; 0 and 0 if the file has none */
    uint32_t minor;
    uint32_t types;     /* how many types there are: their numbers are 0 to types - 1 */
    dceidl_number uuid; /* high has the 16 hexadecimal digits that are written first, low the others; 0 if the file has none */
} dceidl_identity;

/* Sets who an interface is. EMPTY. */
uint32_t dceidl_interface_identity(dceidl_interface *interface, dceidl_identity *identity);

/* Writes the name of an interface, without an end mark, and sets its length, at most 31. EMPTY, SHORT. */
uint32_t dceidl_interface_name(dceidl_interface *interface, uint8_t *out, size_t room, size_t *length);

/* Writes the listing of an interface (docs/LISTING.md) as the command `compile` prints it, without an end mark, and sets its length: all that the interface
   has, as text, with the attributes such as size_is, which no other call gives. Its numbers of types and of operations are those of these calls.
   EMPTY, SHORT, MEMORY. */
uint32_t dceidl_interface_listing(dceidl_interface *interface, uint8_t *out, size_t room, size_t *length);

/* Compares two versions of an interface. OK: the newer one has all operations of the older, and octets of these represent the same values under both.
   REFUSED: the fault has the first reason why not. EMPTY, MEMORY. */
uint32_t dceidl_compare(dceidl_interface *older, dceidl_interface *newer, dceidl_fault *fault);

/* ---- Values ---- */

/* The values of a side of an operation that octets begin with; `taken` is how many octets these are. More may follow them: that taken is less than length is
   no refusal here, though the program `dceidl` refuses it as `Trailing`; a caller that wants no more compares the two. A response is not checked against its
   request: a count or a tag that only the request has is taken as it is read.
   REFUSED: the fault has the place of the first octet that is refused, and the reason. EMPTY; ARGUMENT: operation, side or order; MEMORY. */
uint32_t dceidl_decode(dceidl_interface *interface, uint32_t operation, uint32_t side, uint32_t order, const uint8_t *octets, size_t length,
                       dceidl_values *values, size_t *taken, dceidl_fault *fault);

/* The same of the response to a request, checked against it. EMPTY; ARGUMENT: the values are not of a request, or order; REFUSED; MEMORY. */
uint32_t dceidl_decode_response(dceidl_values *request, uint32_t order, const uint8_t *octets, size_t length, dceidl_values *values, size_t *taken,
                                dceidl_fault *fault);

/* The values of a side of an operation that a text is read as (docs/TEXT.md): the form is that which dceidl_text writes, so the text of similar values
   shows it; blanks and line feeds may be anywhere between tokens. It begins with `values` and the version of the form, 1 or 2.
   REFUSED: the fault has the line and column of the first place at which the text is refused, or the path of the first value that does not conform.
   EMPTY; ARGUMENT: operation or side; MEMORY. */
uint32_t dceidl_read(dceidl_interface *interface, uint32_t operation, uint32_t side, const uint8_t *text, size_t length, dceidl_values *values,
                     dceidl_fault *fault);

/* The same of the response to a request, checked against it. EMPTY; ARGUMENT: the values are not of a request; REFUSED; MEMORY. */
uint32_t dceidl_read_response(dceidl_values *request, const uint8_t *text, size_t length, dceidl_values *values, dceidl_fault *fault);

void dceidl_values_free(dceidl_values *values);

/* The operation and the side that values are of. EMPTY. */
uint32_t dceidl_values_of(dceidl_values *values, uint32_t *operation, uint32_t *side);

/* Writes the text of values (docs/TEXT.md), in version 2, without an end mark, and sets its length. Two values of one side have one text exactly if they
   are the same up to the numbers of their cells. EMPTY, SHORT, MEMORY. */
uint32_t dceidl_text(dceidl_values *values, uint8_t *out, size_t room, size_t *length);

/* Writes the octets of values, and sets their length. Pointers are numbered anew and gaps are zero octets, so these may be other octets than those that
   the values were decoded from. Each chunk of a pipe has `chunk` elements, except the last, which may have fewer; without pipes any chunk but 0 will do.
   REFUSED: they would be more than 67,108,864. EMPTY; ARGUMENT: order, or chunk is 0; SHORT; MEMORY. */
uint32_t dceidl_encode(dceidl_values *values, uint32_t order, uint32_t chunk, uint8_t *out, size_t room, size_t *length, dceidl_fault *fault);

/* ---- Fragments and format labels ---- */

/* Joins the fragments of a request or response (C706, section 12.6) that octets begin with: writes their stub data, sets their length and what the
   fragments state. More octets may follow. Stub data are shorter than their fragments, so a buffer as long as the octets is never too short.
   REFUSED: the fault has the place in the octets, and the reason. ARGUMENT: side; SHORT; MEMORY. */
uint32_t dceidl_join(uint32_t side, const uint8_t *octets, size_t length, uint8_t *out, size_t room, size_t *stub_length, dceidl_call *call,
                     dceidl_fault *fault);

/* Splits stub data into the fragments of a request or response, each but the last of `most` octets with its header of 24; writes these and sets their
   length. Of a response the operation is not used. ARGUMENT: side, order, an operation of a request above 65,535, `most` below 1,024 or above 65,535,
   or more than 67,108,864 octets of stub data; SHORT; MEMORY. */
uint32_t dceidl_split(uint32_t side, uint32_t operation, uint32_t order, uint32_t call, uint32_t most, const uint8_t *stub, size_t stub_length,
                      uint8_t *out, size_t room, size_t *length);

/* Sets the order of octets that a format label (C706, section 14.1) states, the first four of these octets: values that come with one follow it, and are
   decoded from the octets after these four. REFUSED; MEMORY. */
uint32_t dceidl_label_order(const uint8_t *octets, size_t length, uint32_t *order, dceidl_fault *fault);

/* ---- Types ---- */

/* Types have numbers from 0, without holes; dceidl_interface_identity says how many. They stay the same for as long as the interface is held, so a program
   asks once, and reads many values. The first twelve are, in every interface, boolean, char, byte, small, unsigned small, short, unsigned short, long,
   unsigned long, hyper, unsigned hyper and the context handle. Two types of other numbers are different types, though they may look alike. */

/* The numbers of a type. Those of 1 to 11 are the types 0 to 10, and each is named by what C706 calls it. */
enum dceidl_number_kind {
    DCEIDL_NUMBER_BOOLEAN = 1,
    DCEIDL_NUMBER_CHAR = 2,
    DCEIDL_NUMBER_BYTE = 3,
    DCEIDL_NUMBER_SMALL = 4,
    DCEIDL_NUMBER_UNSIGNED_SMALL = 5,
    DCEIDL_NUMBER_SHORT = 6,
    DCEIDL_NUMBER_UNSIGNED_SHORT = 7,
    DCEIDL_NUMBER_LONG = 8,
    DCEIDL_NUMBER_UNSIGNED_LONG = 9,
    DCEIDL_NUMBER_HYPER = 10,
    DCEIDL_NUMBER_UNSIGNED_HYPER = 11,
    DCEIDL_NUMBER_ENUM = 12 /* an enumerated type */
};

enum dceidl_pointer_kind { DCEIDL_REF = 1, DCEIDL_UNIQUE = 2, DCEIDL_FULL = 3 };

/* What a type is. What does not apply to its kind is 0. */
typedef struct {
    uint32_t kind;            /* of enum dceidl_node_kind: the kind of the nodes of its values */
    uint32_t number;          /* NUMBER: of enum dceidl_number_kind */
    uint32_t octets;          /* NUMBER: how many octets one has, 1, 2, 4 or 8 */
    uint32_t is_signed;       /* NUMBER: 1 if the number of a node is to be read as (int64_t)number, 0 if it is the number as it stands */
    uint32_t part;            /* ARRAY, STRING, PIPE: the type of the elements; POINTER: the type of what it points to; UNION: the type of the tag */
    uint32_t bound;           /* ARRAY, STRING: the maximum count, if it is fixed; of a string with its end mark. 0 if the type is conformant: then each
                                 value has a maximum count of its own */
    uint32_t is_varying;      /* ARRAY: 1 if offset and actual count are sent, 0 if not */
    uint32_t pointer;         /* POINTER: of enum dceidl_pointer_kind */
    uint32_t is_encapsulated; /* UNION: 1 if the tag is a part of the union alone, 0 if switch_is names a parameter or member that states it too */
    uint32_t has_default;     /* UNION: 1 if it has a default, which is its last arm, 0 if not */
    size_t parts;             /* STRUCT: how many members there are; UNION: how many arms, the default counted; NUMBER: how many enumerators */
} dceidl_type;

/* Sets what a type is; in constant time. EMPTY; ARGUMENT: no such type. */
uint32_t dceidl_type_at(dceidl_interface *interface, uint32_t type, dceidl_type *about);

/* The directions of a parameter. The result has DCEIDL_WAY_OUT. */
enum dceidl_way { DCEIDL_WAY_IN = 1, DCEIDL_WAY_OUT = 2, DCEIDL_WAY_IN_OUT = 3 };

/* A root of a side of an operation: a parameter that is sent on that side, or the result. */
typedef struct {
    uint32_t type;      /* its type; of a reference pointer to a pipe, the pipe */
    uint32_t way;       /* of enum dceidl_way */
    uint32_t is_result; /* 1 if it is the result, 0 if it is a parameter */
    uint32_t is_pipe;   /* 1 if it is a pipe, 0 if not */
} dceidl_root;

/* Sets how many roots a side of an operation has. EMPTY; ARGUMENT: operation or side. */
uint32_t dceidl_root_count(dceidl_interface *interface, uint32_t operation, uint32_t side, size_t *count);

/* Sets what a root is, by its number from 0, in the order of docs/LISTING.md: parameters, the result, pipes. Writes its name, that of the parameter or
   `return`, and sets its length, at most 31. The time is in proportion to the parameters. EMPTY; ARGUMENT: operation or side, or no such root; SHORT. */
uint32_t dceidl_root_at(dceidl_interface *interface, uint32_t operation, uint32_t side, size_t root, dceidl_root *about, uint8_t *out, size_t room,
                        size_t *length);

/* Sets the number of the first root of a side of an operation that has a name, and its type. EMPTY; ARGUMENT: operation or side; ABSENT, also where the name
   is not UTF-8. */
uint32_t dceidl_root_named(dceidl_interface *interface, uint32_t operation, uint32_t side, const uint8_t *name, size_t length, size_t *root,
                           uint32_t *type);

/* Sets the type of a member of a struct, by its index from 0, as dceidl_node_part takes it; writes its name, and sets its length, at most 31; in constant
   time. EMPTY; ARGUMENT: no such type, or it is no struct, or has no such member; SHORT. */
uint32_t dceidl_member_at(dceidl_interface *interface, uint32_t type, size_t member, uint32_t *member_type, uint8_t *out, size_t room, size_t *length);

/* Sets the index of the first member of a struct that has a name, and its type. EMPTY; ARGUMENT: no such type, or it is no struct; ABSENT, also where the
   name is not UTF-8. */
uint32_t dceidl_member_named(dceidl_interface *interface, uint32_t type, const uint8_t *name, size_t length, size_t *member, uint32_t *member_type);

/* An arm of a union. There is an arm for each label; labels of one arm in the file are several arms here, of one name and type. */
typedef struct {
    uint64_t label;      /* the label, as the `number` of a node of the union is; of the default 0 */
    uint32_t is_default; /* 1 if it is the default, 0 if not */
    uint32_t has_name;   /* 1 if it has a name, 0 if not, as an empty arm has none */
    uint32_t has_type;   /* 1 if it has a value, 0 if it is empty */
    uint32_t type;       /* the type of the value; 0 if it is empty */
} dceidl_arm;

/* Sets what an arm of a union is, by its index from 0, in the order of the file except that the default is the last; writes its name, and sets its length, at
   most 31; in constant time. EMPTY; ARGUMENT: no such type, or it is no union, or has no such arm; SHORT. */
uint32_t dceidl_arm_at(dceidl_interface *interface, uint32_t type, size_t arm, dceidl_arm *about, uint8_t *out, size_t room, size_t *length);

/* Sets the index of the arm that a tag selects: that with this label, or else the default. The tag is the `number` of a node of the union. The time is in
   proportion to the arms. EMPTY; ARGUMENT: no such type, or it is no union; ABSENT: the tag selects no arm. */
uint32_t dceidl_arm_selected(dceidl_interface *interface, uint32_t type, uint64_t tag, size_t *arm);

/* Sets the value of an enumerator of an enumerated type, by its index from 0, in the order of docs/LISTING.md. EMPTY; ARGUMENT: no such type, or it is not
   enumerated, or has no such enumerator. */
uint32_t dceidl_enumerator_at(dceidl_interface *interface, uint32_t type, size_t enumerator, uint64_t *value);

/* Sets the type of the elements of an array or a pipe, or of what a pointer points to. EMPTY; ARGUMENT: no such type, or it is another one. */
uint32_t dceidl_element_type(dceidl_interface *interface, uint32_t type, uint32_t *element_type);

/* ---- Nodes ---- */

/* Values are read without their text as nodes, which have numbers from 0. Those of the roots come first, in the order of the text (docs/TEXT.md), and then
   those of the cells, the values that pointers point to. The parts of a node follow it, each with its own parts before the next one. */
enum dceidl_node_kind {
    DCEIDL_NUMBER = 1,  /* a number; a char or byte is 0 to 255, a boolean 0 or 1 */
    DCEIDL_STRUCT = 2,  /* its parts are its members */
    DCEIDL_ARRAY = 3,   /* elements that are numbers are no nodes, but copied by dceidl_node_numbers or dceidl_node_bytes; others are its parts */
    DCEIDL_STRING = 4,  /* dceidl_node_octets copies it */
    DCEIDL_UNION = 5,   /* its part is the value of the arm that the tag selects, if the arm has one */
    DCEIDL_POINTER = 6, /* dceidl_cell_node gives the node that it points to; a reference pointer is one too, also as a parameter, with its own cell: with
                           [size_is(n)], the parameter `short a[*]` is an ARRAY, and `short *a` a POINTER to one */
    DCEIDL_CONTEXT = 7, /* a context handle; dceidl_node_octets copies its identifier */
    DCEIDL_PIPE = 8     /* all its elements, as those of an array */
};

/* What does not apply to a kind is 0. */
typedef struct {
    uint32_t kind;    /* of enum dceidl_node_kind */
    uint32_t parts;   /* how many parts are nodes */
    uint32_t count;   /* ARRAY, PIPE: how many elements there are */
    uint32_t numbers; /* ARRAY, PIPE: how many of these are numbers: all or none of them */
    uint32_t max;     /* ARRAY, STRING: the maximum count, of a string with its end mark. Where the type has a bound it is that bound. Where the type is
                         conformant it is as the octets or the text had it: an array has at most that many elements, and a string is shorter than it */
    uint32_t offset;  /* ARRAY: the offset */
    uint64_t number;  /* NUMBER: the number; UNION: the tag; POINTER: the number of the cell, from 1, or 0 if it is null; CONTEXT: the attributes. Numbers and
                         tags are extended to 64 bits: if dceidl_type_at says that the type is signed, the number is (int64_t)number */
    size_t length;    /* STRING, CONTEXT: how many octets dceidl_node_octets copies, of a string without its end mark */
} dceidl_node;

/* Fills a handle with the nodes of values, which stay when the values are freed. The time and memory are in proportion to the values. The handle has room
   for two lists, which are used by turns: the new nodes take the place of those before the last ones, so that the last ones stay if memory is refused. A list
   that fits there takes no memory. dceidl_nodes_free gives both back. EMPTY, MEMORY. */
uint32_t dceidl_nodes_of(dceidl_values *values, dceidl_nodes *nodes);

void dceidl_nodes_free(dceidl_nodes *nodes);

/* Sets how many roots and cells there are. EMPTY. */
uint32_t dceidl_home_counts(dceidl_nodes *nodes, size_t *roots, size_t *cells);

/* Sets the number of the node of a root, by the root's number from 0, or of a cell, by that from 1; in constant time. EMPTY; ARGUMENT: no such root or
   cell. */
uint32_t dceidl_root_node(dceidl_nodes *nodes, size_t root, size_t *number);
uint32_t dceidl_cell_node(dceidl_nodes *nodes, uint32_t cell, size_t *number);

/* Sets what a node says of itself; in constant time. EMPTY; ARGUMENT: no such node: the first such number is the number of nodes. */
uint32_t dceidl_node_at(dceidl_nodes *nodes, size_t number, dceidl_node *node);

/* Sets the number of the node after one and all its parts: after a part, that is the next part. After the last of all it is the number of nodes. The time
   is in proportion to the nodes between. EMPTY; ARGUMENT: no such node. */
uint32_t dceidl_node_after(dceidl_nodes *nodes, size_t number, size_t *after);

/* Sets the number of a part of a node by its index, from 0; that of index 0 is number + 1. The time is in proportion to the nodes between: to visit all
   parts, begin with the first and call dceidl_node_after. EMPTY; ARGUMENT: no such node, or it has no such part. */
uint32_t dceidl_node_part(dceidl_nodes *nodes, size_t number, size_t index, size_t *part);

/* Copies the elements of an array or a pipe that are numbers, each as the number of a node is, and sets how many they are: 0 if they are no numbers.
   EMPTY; ARGUMENT: no such node, or neither an array nor a pipe; SHORT. */
uint32_t dceidl_node_numbers(dceidl_nodes *nodes, size_t number, uint64_t *out, size_t room, size_t *count);

/* The same, of each number its low 8 bits: all of it, if the elements have one octet. EMPTY; ARGUMENT; SHORT. */
uint32_t dceidl_node_bytes(dceidl_nodes *nodes, size_t number, uint8_t *out, size_t room, size_t *length);

/* Copies the octets of a string, without an end mark, or the 16 of the identifier of a context handle, and sets their length. EMPTY; ARGUMENT: no such
   node, or another one; SHORT. */
uint32_t dceidl_node_octets(dceidl_nodes *nodes, size_t number, uint8_t *out, size_t room, size_t *length);

/* Sets the type of a cell, by its number from 1; in constant time. EMPTY; ARGUMENT: no such cell. */
uint32_t dceidl_cell_type(dceidl_values *values, uint32_t cell, uint32_t *type);

/* ---- Listings ---- */

/* Values that a program makes or changes are given as nodes, in the order in which values are read as nodes. What the calls above copy of values, node by
   node, is their listing. Of each node the kind and the parts are looked at, and what applies to its kind. Cells are numbered from 1, in the order of `cells`.
   No pointer is null, also where its count is 0: dceidl_some(NULL) serves for octets, and any object of the type for the others. */
typedef struct {
    const dceidl_node *nodes; /* all nodes of the roots and then of the cells */
    size_t node_count;        /* of nodes that were read: what dceidl_node_after sets of the last cell's node; of the last root's if there is no cell; 0 if
                                 there is no root either */
    const uint64_t *numbers;  /* all elements of arrays and pipes that are numbers, each as the number of a node is */
    size_t number_count;
    const uint8_t *octets;    /* the octets of all strings, without end marks, and of all identifiers of context handles */
    size_t octet_count;
    const uint32_t *cells;    /* the type of each cell */
    size_t cell_count;
} dceidl_listing;

/* The values of a side of an operation that a listing says; it is read during the call only. A response is not checked against its request.
   WRONG_NODE: `node` is the number of the first node that is wrong: with those before it, no listing of that side begins so. It is node_count where nodes
   are missing, or numbers or octets are left. Where the type of a cell is wrong, it is the first node of the cell that does not fit that type; if all fit,
   the values are refused. REFUSED: the fault has the path of the first value that does not conform. EMPTY; ARGUMENT: operation or side, or more than
   1,073,741,824 nodes, numbers or cells; MEMORY. */
uint32_t dceidl_build(dceidl_interface *interface, uint32_t operation, uint32_t side, const dceidl_listing *listing, dceidl_values *values, size_t *node,
                      dceidl_fault *fault);

/* The same of the response to a request, checked against it. WRONG_NODE; REFUSED; EMPTY; ARGUMENT: the values are not of a request, or more nodes, numbers or
   cells; MEMORY. */
uint32_t dceidl_build_response(dceidl_values *request, const dceidl_listing *listing, dceidl_values *values, size_t *node, dceidl_fault *fault);

/* ---- Items ---- */

/* What octets are made of, one item after the other. */
enum dceidl_item_kind {
    DCEIDL_ITEM_GAP = 1,       /* octets of any value, up to the place of the next item */
    DCEIDL_ITEM_MAX = 2,       /* a maximum count */
    DCEIDL_ITEM_OFFSET = 3,    /* an offset */
    DCEIDL_ITEM_ACTUAL = 4,    /* an actual count */
    DCEIDL_ITEM_REFERENT = 5,  /* the number of a pointer */
    DCEIDL_ITEM_TAG = 6,       /* the tag of a union */
    DCEIDL_ITEM_NUMBER = 7,    /* a number */
    DCEIDL_ITEM_STRING = 8,    /* the elements of a string, with its end mark; number: its actual count, with the mark */
    DCEIDL_ITEM_CONTEXT = 9,   /* a context handle */
    DCEIDL_ITEM_CHUNK = 10     /* the count of a chunk */
};

typedef struct {
    uint32_t at;      /* the number of its first octet, from 0 */
    uint32_t length;  /* how many octets it has */
    uint32_t kind;    /* of enum dceidl_item_kind */
    uint32_t in_cell; /* 1 if it is of a cell, 0 if it is of a root */
    uint32_t home;    /* the number of that cell, from 1, or of that root, from 0 */
    uint32_t node;    /* which value of this cell or root it is of, depth first, from 0: the cell's or root's own value is 0, and its parts follow it, each
                         with its own parts before the next one. Here an element that is a number counts too, though it is no node of dceidl_nodes: so
                         where a node of an array has `numbers` k, its elements are the k values after it. 0 of a gap, of the count of a chunk, and of a
                         maximum count that comes before the struct whose last member it belongs to, also where that struct is in another one */
    uint64_t number;  /* the number that its octets hold, extended to 64 bits as those of nodes are; of a gap and a context handle 0 */
} dceidl_item;

/* Fills a handle with the items of the values of a side of an operation that octets begin with. The answers are those of dceidl_decode: REFUSED, EMPTY,
   ARGUMENT, MEMORY. The time is in proportion to the octets that the values take, and the memory to their items. How many octets that is, is the end of
   the last item, as `at` and `length` say; 0 if there is none. */
uint32_t dceidl_items_of(dceidl_interface *interface, uint32_t operation, uint32_t side, uint32_t order, const uint8_t *octets, size_t length,
                         dceidl_items *items, dceidl_fault *fault);

/* The same of the response to a request, checked against it. The answers are those of dceidl_decode_response. */
uint32_t dceidl_items_of_response(dceidl_values *request, uint32_t order, const uint8_t *octets, size_t length, dceidl_items *items, dceidl_fault *fault);

/* Decodes as dceidl_decode does, and fills both handles, with the values and with their items, in one reading. The answers are those of dceidl_decode. */
uint32_t dceidl_decode_items(dceidl_interface *interface, uint32_t operation, uint32_t side, uint32_t order, const uint8_t *octets, size_t length,
                             dceidl_values *values, dceidl_items *items, size_t *taken, dceidl_fault *fault);

/* The same of the response to a request, checked against it. The answers are those of dceidl_decode_response. */
uint32_t dceidl_decode_response_items(dceidl_values *request, uint32_t order, const uint8_t *octets, size_t length, dceidl_values *values,
                                      dceidl_items *items, size_t *taken, dceidl_fault *fault);

void dceidl_items_free(dceidl_items *items);

/* Sets the number of items. EMPTY. */
uint32_t dceidl_item_count(dceidl_items *items, size_t *count);

/* Sets an item by its place, from 0; in constant time. EMPTY; ARGUMENT: no such item. */
uint32_t dceidl_item_at(dceidl_items *items, size_t index, dceidl_item *item);

/* ---- Faults ---- */

/* Writes the line that the program `dceidl` would report, as `refused: octets at 2: Disagrees wanted 5 found 4`, with its line feed, and sets its length.
   EMPTY, SHORT, MEMORY. */
uint32_t dceidl_fault_line(dceidl_fault *fault, uint8_t *out, size_t room, size_t *length);

/* Sets the numbers of the fault: what is refused, why and where. EMPTY. */
uint32_t dceidl_fault_cause(dceidl_fault *fault, dceidl_cause *cause);

/* Writes the name of the file that is refused or is not among those given, and sets its length; 0 where there is no file. EMPTY, SHORT. */
uint32_t dceidl_fault_file(dceidl_fault *fault, uint8_t *out, size_t room, size_t *length);

/* Writes the name that belongs to the fault, and sets its length. Of a FILE: the word that is left out, the name that is unknown or declared twice. Of a
   VALUE: the path of the value, as `a.b[3]` or `@2.n`. Of a NEWER version: the operation that differs. The length is 0 for every other fault, such as one
   in octets. EMPTY, SHORT. */
uint32_t dceidl_fault_name(dceidl_fault *fault, uint8_t *out, size_t room, size_t *length);

/* Writes the word of the reason alone, which `dceidl why WORD` explains, as `Disagrees`, or `Rule` where a rule is broken, and sets its length. The length is 0
   where the kind says all. EMPTY, SHORT. */
uint32_t dceidl_fault_reason(dceidl_fault *fault, uint8_t *out, size_t room, size_t *length);

void dceidl_fault_free(dceidl_fault *fault);

#ifdef __cplusplus
}
#endif

#endif
