"""The command `compat`: two versions of an interface. One case for each form of type, alike and different, and for each answer."""

from case import CLOSED, FULL, Case, lines

UUID = "11111111-2222-3333-4444-555555555555"

SUM = "typedef struct { short n; [size_is(n)] hyper a[*]; } s; void sum([in] s *p);"
LATER = "typedef struct { short m; [size_is(m)] hyper a[*]; } s; void sum([in] s *p); void ping();"
WIDER = "typedef struct { long n; [size_is(n)] hyper a[*]; } s; void sum([in] s *p);"
PAIR = "typedef struct { long x; } s; void f([in] s a, [in] s b);"
TWO = "typedef struct { long x; } s; typedef struct { long x; } r; void f([in] s a, [in] r b);"
PING = "void ping();"


def version(declarations, number="1.0", uuid=UUID):
    """An interface file with these declarations. Without a UUID it is local."""
    of = f"uuid({uuid})" if uuid else "local"
    return f"[{of}, version({number})] interface t {{ {declarations} }}\n".encode()


def compared(name, old, new, answer=None, extra=(), **wanted):
    """The file `new.idl` is compared with `old.idl`."""
    if answer is not None:
        wanted.update(notes=lines(f"refused: compat: {answer}"), status=1)
    return Case(f"compat: {name}", ["compat", "old.idl", "-", "new.idl", "-"], {"old.idl": old, "new.idl": new, **dict(extra)}, **wanted)


def alike(name, old, new):
    """Declarations that are alike, in both directions."""
    return [compared(f"alike: {name}, {way}", version(one), version(other), out=lines("compatible 1"))
            for way, one, other in (("there", old, new), ("back", new, old))]


def different(name, old, new):
    """Declarations whose first operation, `f`, differs, in both directions."""
    return [compared(f"different: {name}, {way}", version(one), version(other), "Differs f")
            for way, one, other in (("there", old, new), ("back", new, old))]


ANSWERS = [
    compared("a later version", version(SUM), version(LATER, "1.1"), out=lines("compatible 1")),
    compared("an older version", version(LATER, "1.1"), version(SUM), "OlderMinor 1 0"),
    compared("a wider member", version(SUM), version(WIDER), "Differs sum"),
    compared("two structs for one", version(PAIR), version(TWO), "Differs f"),
    compared("one struct for two", version(TWO), version(PAIR), "Differs f"),
    compared("itself", version(TWO), version(TWO), out=lines("compatible 1")),
    compared("another UUID", version(PING), version(PING, uuid=UUID[:-1] + "6"), "OtherUuid"),
    compared("no UUIDs", version(PING, uuid=None), version(PING, uuid=None), "OtherUuid"),
    compared("one UUID", version(PING), version(PING, uuid=None), "OtherUuid"),
    compared("a UUID in capitals", version(PING, uuid="1A111111-2222-3333-4444-555555555555"),
             version(PING, uuid="1a111111-2222-3333-4444-555555555555"), out=lines("compatible 1")),
    compared("another major version", version(PING), version(PING, "2.0"), "OtherMajor 1 2"),
    compared("an older major version", version(PING, "2.0"), version(PING, "1.9"), "OtherMajor 2 1"),
    compared("fewer operations", version(PING + SUM), version(PING), "Fewer 2 1"),
    compared("no operations", version("const long C = 1;"), version(PING), out=lines("compatible 0")),
    compared("the UUID comes before the version", version(PING), version(PING, "2.0", UUID[:-1] + "6"), "OtherUuid"),
    compared("the major version comes before the minor one", version(PING, "1.5"), version(PING, "2.0"), "OtherMajor 1 2"),
    compared("the minor version comes before the operations", version(PING, "1.1"), version("const long C = 1;"), "OlderMinor 1 0"),
    compared("the number of operations comes before what they are", version("void f([in] long a);" + PING), version("void f([in] short a);"), "Fewer 2 1"),
    compared("the third operation", version("void f([in] long a); void g([in] long a); void h([in] long a);"),
             version("void f([in] long a); void g([in] long a); void h([in] short a);"), "Differs h"),
    compared("its name is that of the older version", version("void old_name([in] long a);"), version("void new_name([in] short a);"), "Differs old_name"),
    compared("pairs of an earlier operation count", version("typedef struct { long x; } s; void f([in] s a); void g([in] s a);"),
             version("typedef struct { long x; } s; typedef struct { long x; } r; void f([in] s a); void g([in] r a);"), "Differs g"),
]

UNION = "typedef union switch (long k) u {{ {} }} w; void f([in] w a);"
ARMS = "case 1: short x; case 2: ; default: long y;"

FORMS = [
    *alike("primitives", "void f([in] long a);", "void g([in] long b);"),
    *different("primitives", "void f([in] long a);", "void f([in] unsigned long a);"),
    *different("a primitive and an enumerated type", "void f([in] short a);", "typedef enum { A } e; void f([in] e a);"),
    *alike("enumerated types", "typedef enum { A, B } e; void f([in] e a);", "typedef enum { C, D } e; void f([in] e a);"),
    *different("enumerated types", "typedef enum { A, B } e; void f([in] e a);", "typedef enum { A, B, C } e; void f([in] e a);"),
    *alike("structs", "typedef struct { long x; short y; } s; void f([in] s a);", "typedef struct { long v; short w; } r; void f([in] r a);"),
    *different("members in another order", "typedef struct { long x; short y; } s; void f([in] s a);",
               "typedef struct { short y; long x; } s; void f([in] s a);"),
    *different("a member more", "typedef struct { long x; } s; void f([in] s a);", "typedef struct { long x; long y; } s; void f([in] s a);"),
    *alike("fixed arrays", "void f([in] long a[3]);", "typedef long row[3]; void f([in] row a);"),
    *different("bounds", "void f([in] long a[3]);", "void f([in] long a[4]);"),
    *different("elements", "void f([in] long a[3]);", "void f([in] short a[3]);"),
    *different("varying or not", "void f([in] long n, [in] long a[3]);", "void f([in] long n, [in, length_is(n)] long a[3]);"),
    *different("conformant or not", "void f([in] long n, [in] long a[3]);", "void f([in] long n, [in, size_is(n)] long a[*]);"),
    *alike("texts", "void f([in, string] char a[4]);", "void f([in, string] char b[4]);"),
    *different("bounds of texts", "void f([in, string] char a[4]);", "void f([in, string] char a[*]);"),
    *different("characters", "void f([in, string] char a[4]);", "void f([in, string] byte a[4]);"),
    *alike("unions", UNION.format(ARMS), "typedef union switch (long t) v { case 1: short p; case 2: ; default: long q; } z; void f([in] z a);"),
    *different("labels", UNION.format(ARMS), UNION.format("case 1: short x; case 3: ; default: long y;")),
    *different("labels in another order", UNION.format(ARMS), UNION.format("case 2: ; case 1: short x; default: long y;")),
    *different("arms", UNION.format(ARMS), UNION.format("case 1: long x; case 2: ; default: long y;")),
    *different("an empty arm", UNION.format(ARMS), UNION.format("case 1: short x; case 2: long z; default: long y;")),
    *different("default or none", UNION.format(ARMS), UNION.format("case 1: short x; case 2: ;")),
    *different("defaults", UNION.format(ARMS), UNION.format("case 1: short x; case 2: ; default: ;")),
    *different("tags", UNION.format(ARMS), UNION.format(ARMS).replace("(long k)", "(short k)")),
    *different("encapsulated or not", "typedef union switch (long k) u { case 1: short x; } w; void f([in] long k, [in] w a);",
               "typedef [switch_type(long)] union { [case(1)] short x; } w; void f([in] long k, [in, switch_is(k)] w a);"),
    *alike("pointers", "void f([in, unique] long *a);", "void f([in, unique] long *b);"),
    *different("classes of pointers", "void f([in, unique] long *a);", "void f([in, ptr] long *a);"),
    *different("a reference pointer", "void f([in, unique] long *a);", "void f([in] long *a);"),
    *different("referents", "void f([in, unique] long *a);", "void f([in, unique] short *a);"),
    *alike("context handles", "typedef [context_handle] void *c; void f([in] c a);", "typedef [context_handle] void *d; void f([in] d a);"),
    *different("a context handle and a pointer", "typedef [context_handle] void *c; void f([in] c a);", "void f([in, unique] long *a);"),
    *alike("pipes", "typedef pipe long p; void f([in] p a);", "typedef pipe long q; void f([in] q a);"),
    *different("elements of pipes", "typedef pipe long p; void f([in] p a);", "typedef pipe short p; void f([in] p a);"),
    *alike("types that name themselves", "typedef struct s { [unique] struct s *next; } s; void f([in] s a);",
           "typedef struct r { [unique] struct r *rest; } r; void f([in] r a);"),
]

def counted(attribute, variable, bounds="[*]", names=("n", "m")):
    """An array with an attribute that names one of two parameters."""
    return f"void f([in] long {names[0]}, [in] long {names[1]}, [in, {attribute}({variable})] short a{bounds});"


PARAMETERS = [
    *(case for attribute, bounds in (("size_is", "[*]"), ("max_is", "[*]"), ("length_is", "[9]"), ("first_is", "[9]"), ("last_is", "[9]"))
      for case in (*alike(f"{attribute} of one variable", counted(attribute, "n", bounds), counted(attribute, "k", bounds, ("k", "l"))),
                   *different(f"{attribute} of another variable", counted(attribute, "n", bounds), counted(attribute, "m", bounds)))),
    *different("size_is and max_is", counted("size_is", "n"), counted("max_is", "n")),
    *different("length_is and last_is", counted("length_is", "n", "[9]"), counted("last_is", "n", "[9]")),
    *different("the value that a variable points to", "void f([in] long n, [in] long *m, [in, size_is(n)] short a[*]);",
               "void f([in] long n, [in] long *m, [in, size_is(*m)] short a[*]);"),
    *different("attributes of members", "typedef struct { long n; long m; [size_is(n)] short a[*]; } s; void f([in] s *p);",
               "typedef struct { long n; long m; [size_is(m)] short a[*]; } s; void f([in] s *p);"),
    *different("in, and in and out", "void f([in] long *a);", "void f([in, out] long *a);"),
    *different("in and out", "void f([in] long *a);", "void f([out] long *a);"),
    *different("out, and in and out", "void f([out] long *a);", "void f([in, out] long *a);"),
    *different("a parameter more", "void f([in] long a);", "void f([in] long a, [in] long b);"),
    *alike("results", "long f();", "long g();"),
    *different("result or none", "long f();", "void f();"),
    *different("results", "long f();", "short f();"),
    *alike("handles", "void f([in] handle_t h, [in] long a);", "void f([in] handle_t g, [in] long b);"),
    *different("a handle and a number", "void f([in] handle_t h);", "void f([in] long h);"),
]

FILES = [
    Case("compat: the older file is missing", ["compat", "old.idl", "-", "new.idl", "-"], {"new.idl": version(PING)},
         notes=lines("absent: old.idl"), status=7),
    Case("compat: the newer file is missing", ["compat", "old.idl", "-", "new.idl", "-"], {"old.idl": version(PING)},
         notes=lines("absent: new.idl"), status=7),
    compared("the older file is refused first", b"[", b"]", notes=lines("idl old.idl:1:2: Syntax"), status=6),
    compared("the newer file is refused", version(PING), b"]", notes=lines("idl new.idl:1:1: Syntax"), status=6),
    compared("an import of both", version('import "both.idl"; void f([in] b a);'), version('import "both.idl"; void f([in] b a);'),
             extra={"both.idl": version("typedef struct { long x; } b;")}, out=lines("compatible 1")),
    Case("compat: attribute configuration files", ["compat", "old.idl", "old.acf", "new.idl", "new.acf"],
         {"old.idl": version(PING), "new.idl": version(PING), "old.acf": b"interface t { }", "new.acf": b"interface t { }"}, out=lines("compatible 1")),
    Case("compat: the older attribute configuration file is missing", ["compat", "old.idl", "old.acf", "new.idl", "-"],
         {"old.idl": version(PING), "new.idl": version(PING)}, notes=lines("absent: old.acf"), status=7),
    Case("compat: the newer attribute configuration file is missing", ["compat", "old.idl", "-", "new.idl", "new.acf"],
         {"old.idl": version(PING), "new.idl": version(PING)}, notes=lines("absent: new.acf"), status=7),
    Case("compat: one file for both", ["compat", "old.idl", "-", "old.idl", "-"], {"old.idl": version(SUM)}, out=lines("compatible 1")),
    compared("no input is read", version(PING), version(PING), input=CLOSED, out=lines("compatible 1")),
    Case("compat: a full output", ["compat", "old.idl", "-", "old.idl", "-"], {"old.idl": version(PING)}, out=FULL,
         notes=lines("write fault"), status=4),
    Case("compat: full notes", ["compat", "old.idl", "-", "new.idl", "-"], {"old.idl": version(PING), "new.idl": version(PING, "2.0")}, notes=FULL, status=4),
    Case("compat: words are missing", ["compat", "old.idl", "-", "new.idl"], {"old.idl": version(PING), "new.idl": version(PING)},
         notes=lines("words refused"), status=2),
]



def explained(name, old, new, op, *place):
    """The place at which declarations differ, whose first operation that differs is this."""
    return Case(f"compat: why: {name}", ["compat", "old.idl", "-", "new.idl", "-", "why"], {"old.idl": version(old), "new.idl": version(new)},
                out=lines(*place), notes=lines(f"refused: compat: Differs {op}"), status=1)


LIST = "typedef struct s {{ long x; [unique] struct s *next; {} y[2]; }} s; void f([in] s a);"
PARTED = ("old struct 1", "new struct 1")

PLACES = [
    explained("a primitive", "void f([in] long a);", "void f([in] unsigned long a);", "f", "op f parameter a", "old long", "new unsigned long"),
    explained("a primitive and an enumerated type", "void f([in] short a);", "typedef enum { A } e; void f([in] e a);", "f",
              "op f parameter a", "old short", "new enum 1"),
    explained("a member of a pointee", SUM, WIDER, "sum", "op sum parameter p", "path pointee .n", "old short", "new long"),
    explained("an element", "void f([in] long a[3]);", "void f([in] short a[3]);", "f", "op f parameter a", "path element", "old long", "new short"),
    explained("a bound", "void f([in] long a[3]);", "void f([in] long a[4]);", "f", "op f parameter a", "old fixed 3", "new fixed 4"),
    explained("a member more", "typedef struct { long x; } s; void f([in] s a);", "typedef struct { long x; long y; } s; void f([in] s a);", "f",
              "op f parameter a", "old struct 1", "new struct 2"),
    explained("steps", LIST.format("short"), LIST.format("byte"), "f", "op f parameter a", "path .y element", "old short", "new byte"),
    explained("an arm", UNION.format(ARMS), UNION.format("case 1: long x; case 2: ; default: long y;"), "f",
              "op f parameter a", "path arm 1", "old short", "new long"),
    explained("a default", UNION.format(ARMS), UNION.format("case 1: short x; case 2: ; default: short y;"), "f",
              "op f parameter a", "path default", "old long", "new short"),
    explained("a tag", UNION.format(ARMS), UNION.format(ARMS).replace("(long k)", "(short k)"), "f",
              "op f parameter a", "path tag", "old long", "new short"),
    explained("labels", UNION.format(ARMS), UNION.format("case 1: short x; case 3: ; default: long y;"), "f",
              "op f parameter a", "old union 2", "new union 2"),
    explained("a class of pointers", "void f([in, unique] long *a);", "void f([in, ptr] long *a);", "f", "op f parameter a", "old unique", "new ptr"),
    explained("an element of a pipe", "typedef pipe long p; void f([in] p a);", "typedef pipe short p; void f([in] p a);", "f",
              "op f parameter a", "path element", "old long", "new short"),
    explained("a handle and a number", "void f([in] handle_t h);", "void f([in] long h);", "f", "op f parameter h", "old handle_t", "new long"),
    explained("an attribute", counted("size_is", "n"), counted("size_is", "m"), "f", "op f parameter a", "old in conf", "new in conf"),
    explained("a direction", "void f([in] long *a);", "void f([in, out] long *a);", "f", "op f parameter a", "old in ref", "new in out ref"),
    explained("the number of parameters", "void f([in] long a);", "void f([in] long a, [in] long b);", "f",
              "op f", "old 1 parameters", "new 2 parameters"),
    explained("a result", "long f();", "short f();", "f", "op f result", "old long", "new short"),
    explained("a result or none", "long f();", "void f();", "f", "op f result", "old long", "new void"),
    explained("the second parameter", "void f([in] long a, [in] byte b);", "void f([in] long c, [in] short d);", "f",
              "op f parameter b", "old byte", "new short"),
    explained("a primitive that has itself as its partner already", "void f([in] long a, [in] long b);", "void f([in] long c, [in] short d);", "f",
              "op f parameter b", "old long", "new short"),
    explained("two structs for one", PAIR, TWO, "f", "op f parameter b", *PARTED, "earlier", "op f parameter a", *PARTED),
    explained("one struct for two", TWO, PAIR, "f", "op f parameter b", *PARTED, "earlier", "op f parameter a", *PARTED),
    explained("a struct of an earlier operation", "typedef struct { long x; } s; void f([in] s *p); void g([in] s a);",
              "typedef struct { long x; } s; typedef struct { long x; } r; void f([in] s *p); void g([in] r a);", "g",
              "op g parameter a", *PARTED, "earlier", "op f parameter p", "path pointee", *PARTED),
    Case("compat: why: compatible", ["compat", "old.idl", "-", "new.idl", "-", "why"], {"old.idl": version(SUM), "new.idl": version(LATER, "1.1")},
         out=lines("compatible 1")),
    Case("compat: why: another answer", ["compat", "old.idl", "-", "new.idl", "-", "why"], {"old.idl": version(PING), "new.idl": version(PING, "2.0")},
         notes=lines("refused: compat: OtherMajor 1 2"), status=1),
    Case("compat: why: a file is missing", ["compat", "old.idl", "-", "new.idl", "-", "why"], {"old.idl": version(PING)}, notes=lines("absent: new.idl"), status=7),
    Case("compat: why: a full output", ["compat", "old.idl", "-", "new.idl", "-", "why"], {"old.idl": version(SUM), "new.idl": version(WIDER)}, out=FULL,
         notes=lines("write fault"), status=4),
    Case("compat: why: full notes", ["compat", "old.idl", "-", "new.idl", "-", "why"], {"old.idl": version(SUM), "new.idl": version(WIDER)}, notes=FULL,
         out=lines("op sum parameter p", "path pointee .n", "old short", "new long"), status=4),
    Case("compat: why: another last word", ["compat", "old.idl", "-", "new.idl", "-", "how"], {"old.idl": version(PING), "new.idl": version(PING)},
         notes=lines("words refused"), status=2),
]

CASES = ANSWERS + FORMS + PARAMETERS + FILES + PLACES
