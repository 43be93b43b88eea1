"""Rules of the language: counts, and which of several is reported.

The smallest text that breaks each rule, and one near it that breaks none, are in docs/IDL.md (documents.py runs them), and are judged by
proof too (`example_idl: small_texts_are_judged`). The limits of other rules are in limits.py.
"""

from typing import Optional

from case import Case, lines
from idl import MARK, fault


def kept(text: str, name: Optional[str] = None) -> Case:
    """A file that keeps all rules: what comes next is its operation, which it lacks. Without a name the text is the name."""
    return Case(f"idl, no rule: {name or text}", ["decode", "t.idl", "-", "none", "in", "little"], {"t.idl": text.encode()},
                notes=lines("idl t.idl: NoOperation none"), status=6)


def operations(count: int) -> str:
    """So many operations."""
    return "".join(f"void f{number}();" for number in range(count))


def parameters(count: int) -> str:
    """So many parameters."""
    return ",".join(f"[in]long p{number}" for number in range(count))


def structs(count: int) -> str:
    """So many structs, each on a line of its own."""
    return "".join(f"struct s{number} {{ long a; }};\n" for number in range(count))


# A line that needs three types, if no pointer to long was before it: the struct, then the pointer to long at the member, then the
# pointer to the struct at the typedef, which begins before the member.
THREE_TYPES = "typedef [ptr] struct { [ptr] long *a; } *sp;"

# 4,096 types, 1,024 operations and 256 parameters are the most; twelve types are there before any is declared. The place is that of
# the first construct at which there is one too many. No file is long enough for 67,108,865 members and arms.
COUNTS = [
    fault("Rule 39", f"[local] interface t {{\n{structs(4084)}{MARK}struct q {{ long a; }};\n}}", "4,097 types, the last a struct"),
    fault("Rule 39", f"[local] interface t {{\n{structs(4083)}{THREE_TYPES.replace('[ptr] long', MARK + '[ptr] long')}\n}}",
          "4,098 types, the 4,097th a member's"),
    fault("Rule 39", f"[local] interface t {{\n{structs(4082)}{MARK}{THREE_TYPES}\n}}", "4,097 types, the last a typedef's"),
    kept(f"[local] interface t {{\n{structs(4084)}}}", "4,096 types, the last a struct"),
    kept(f"[local] interface t {{\n{structs(4081)}{THREE_TYPES}\n}}", "4,096 types, the last a typedef's"),
    fault("Rule 39", f"[local] interface t {{ {operations(1024)}{MARK}void g(); }}", "1,025 operations"),
    fault("Rule 39", f"[local] interface t {{ {operations(1024)}{MARK}void g(); void h(); }}", "1,026 operations"),
    kept(f"[local] interface t {{ {operations(1024)} }}", "1,024 operations"),
    fault("Rule 39", f"[local] interface t {{ void f({parameters(256)},{MARK}[in]long q); }}", "257 parameters"),
    fault("Rule 39", f"[local] interface t {{ void f({parameters(256)}); void g({parameters(256)},{MARK}[in]long q,[in]long r); }}",
          "256 parameters and 258"),
    kept(f"[local] interface t {{ void f({parameters(256)}); void g({parameters(256)}); }}", "256 parameters twice"),
]

# The least rule is reported, at its first place, and every fault of a name or a constant comes before it.
ORDER = [
    fault("Rule 5", "[local] interface t { void f(long a); §long; }", "a lesser rule after a greater"),
    fault("Rule 30", "[local] interface t { void f(§long a); void g(long a); }", "one rule twice"),
    fault("Unknown no_t", "[local] interface t { long; void f([in]§no_t a); }", "a rule before a name"),
    fault("ZeroDivisor", "[local] interface t { long; const long A=5§%0; }", "a rule before a constant"),
]

CASES = COUNTS + ORDER

# Further places of rules, in texts of one line each.
PLACES = [
    (30, '[local] interface t { void f(§long a, long b); }'),
    (30, '[local] interface t { void f([in] long a, §long b); }'),
    (6, '[local] interface t { typedef struct { §[ref] void *a; } s; }'),
    (7, '[local] interface t { typedef struct { long *a; } s; §typedef handle_t h; }'),
    (15, '[local] interface t { struct s { §struct { long a[1..2]; } b[1..2]; }; }'),
    (1, '[local] interface t { struct s { long *a; }; typedef [§in] long b; typedef [ref, ref] long c; }'),
    (26, '[local] interface t { struct s { §[ref, ptr] long a; }; }'),
    (11, '[local] interface t { §struct a { struct a x; }; struct b { struct b x; }; }'),
    (11, '[local] interface t { struct a { struct { long x; } y; }; §struct d { union switch (long k) { case 1: struct d x; } u; }; }'),
    (11, '[local] interface t { struct a { long x; }; §struct b { struct c { struct b x; } y[3]; }; }'),
    (13, '[local] interface t { enum { A = 32767, §B }; }'),
    (27, '[local] interface t { union u switch (long k) { case 1: default: §long *a; }; }'),
    (22, '[local] interface t { [switch_type(long)] union u { [case(1, 2)] ; [string, §case(2)] char a[2]; }; }'),
    (26, '[local] interface t { struct s { long a; struct { §[ref, ptr] long *b; } c; }; }'),
    (26, '[local] interface t { void f([in] struct { §[ref, ptr] long *a; } *b); }'),
    (38, '[local] interface t { const long A = 1; §const boolean B = 2; }'),
    (22, '[local] interface t { union u switch (short k) { case 1: long a; case 2: §case 3 - 2: char c; }; }'),
    (22, '[local] interface t { union u switch (short k) { case 1: long a; §case 32768: char c; }; }'),
    (22, '[local] interface t { union u switch (long k) { default: long a; case 1: §default: char c; }; }'),
    (22, '[local] interface t { typedef enum { red, green } E; union u switch (E k) { case green: long a; §case 2: char c; }; }'),
    (22, '[local] interface t { typedef enum { red, green } E; typedef [switch_type(E)] union { [case(green, 0)] long a; [§case(red)] ; } U; }'),
    (22, '[local] interface t { typedef enum { red, green } E; typedef enum { one, two, three } F; union u switch (F k) { case three: long a; }; union v switch (E k) { case green: char c; §case 2: ; }; }'),
    (6, '[local] interface t { §const void *A = 1; }'),
    (6, '[local] interface t { §typedef [context_handle] void **c; }'),
    (7, '[local] interface t { §handle_t f(); }'),
    (7, '[local] interface t { void f(§[in, out] handle_t h); }'),
    (7, '[local] interface t { void f(§handle_t h); }'),
    (8, '[local] interface t { §typedef [ptr] pipe long *p; }'),
    (9, '[local] interface t { typedef [context_handle] void *c; void f(§[in, context_handle] c *a); }'),
    (10, '[local] interface t { typedef [context_handle] void *c; §typedef [ptr] c *p; }'),
    (31, '[local] interface t { typedef [context_handle] void *c; void f(§[out] c a); }'),
    (26, '[local] interface t { typedef [context_handle] void *c; void f(§[in, ptr] c a); }'),
    (24, '[local] interface t { typedef [switch_type(long)] union { [default]; } u; §typedef u v[2]; }'),
    (24, '[local] interface t { typedef [switch_type(long)] union { [default]; } u; void f([in] long k, §[in, switch_is(k)] u a[2]); }'),
    (23, '[local] interface t { struct s { long k; §[switch_is(k)] union { [default] ; } u; }; }'),
    (23, '[local] interface t { [switch_type(long)] union u { [case(1)] long a; §long b; }; }'),
    (25, '[local] interface t { typedef [switch_type(long)] union { [default]; } u; void f([in] byte k, §[in, switch_is(k)] u a); }'),
    (25, '[local] interface t { typedef [switch_type(long)] union { [default]; } u; void f([in, unique] long *k, §[in, switch_is(*k)] u a); }'),
    (36, '[local] interface t { typedef [switch_type(long)] union { [default]; } u; struct s { §[switch_is(k)] u a; }; }'),
    (25, '[local] interface t { typedef [switch_type(long)] union { [default]; } u; struct s { §[switch_is(a)] u a; }; }'),
    (14, '[local] interface t { §typedef long a[4096][4097]; }'),
    (17, '[local] interface t { typedef [string] char n[4]; §typedef n a[2]; }'),
    (16, '[local] interface t { §typedef [string] char a[2][3]; }'),
    (18, '[local] interface t { struct s { §[string] char a[*]; long b; }; }'),
    (33, '[local] interface t { typedef char n[4]; void f(§[in, string] n *s); }'),
    (34, '[local] interface t { typedef long arr[*]; void f(§[in] arr a); }'),
    (34, '[local] interface t { void f(§[in, size_is(n), max_is(n)] long *a, [in] long n); }'),
    (35, '[local] interface t { void f(§[in, length_is(n), last_is(n)] long a[2], [in] long n); }'),
    (37, '[local] interface t { void f(§[in, size_is(n)] long a[*], [in] long *n); }'),
    (37, '[local] interface t { void f(§[in, size_is(*n)] long a[*], [in, ptr] long *n); }'),
    (37, '[local] interface t { struct s { [ref] long *n; §[size_is(*n)] long a[*]; }; }'),
]

# What is near them, and breaks no rule.
NEAR = [
    '[local] interface t { union u switch (short k) { case 1: case 32767: long a; case -32768: default: char c; }; }',
    '[local] interface t { typedef enum { red, green } E; union u switch (E k) { case green: case 0: long a; default: ; }; }',
    '[local] interface t { const void *A = NULL; }',
    '[local] interface t { typedef [ref] pipe long *p; void f([in] p a); }',
    '[local] interface t { typedef [switch_type(long)] union { [default]; } u; typedef [ptr] u *v; }',
    '[local] interface t { typedef [switch_type(long)] union { [default]; } u; void f([in] char *k, [in, switch_is(*k)] u a, [in] boolean *m, [in, switch_is(*m)] u *b); }',
    '[local] interface t { typedef long a[4096][4096]; }',
    '[local] interface t { struct s { [string] char a[*]; }; }',
    '[local] interface t { typedef char n[4]; void f([in, string] n s); }',
    '[local] interface t { typedef long arr[*]; void f([in] arr *a); }',
    '[local] interface t { void f([in, size_is(*n)] long a[*], [in] long *n); }',
    '[local] interface t { typedef [ref] long *r; void f([in, size_is(*n)] long a[*], [in] r n); }',
]

# Files go in the order in which their resolving ended: those that are imported come before the one that imports them.
IMPORTED = "[version(1)] interface b { typedef long *y; void f(long z); }"
IMPORTS = [
    Case("idl, the first file in the order of imports", ["decode", "t.idl", "-", "f", "in", "little"],
         {"t.idl": b'[local] interface t { import "b"; typedef long *x; }', "b": IMPORTED.encode()},
         notes=lines("idl b:1:28: Rule 27"), status=6),
    Case("idl, the least rule in the last import", ["decode", "t.idl", "-", "f", "in", "little"],
         {"t.idl": b'[local] interface t { import "b", "c"; typedef long *x; }', "b": IMPORTED.encode(),
          "c": b"[version(1.65536)] interface c { }"},
         notes=lines("idl c:1:2: Rule 4"), status=6),
]

CASES += [fault(f"Rule {rule}", text) for rule, text in PLACES] + [kept(text) for text in NEAR] + IMPORTS
