"""Interface files with one operation of one small number, in unusual layouts and with unusual names, and operations that they lack."""

from case import Case, interface, lines, octets

HEADER = "[uuid(11111111-2222-3333-4444-555555555555)]"


def accepted(name, file, operation="f", parameter="x"):
    """A file in which the operation has one small parameter."""
    return Case(f"plain: {name}", ["decode", "t.idl", "-", operation, "in", "little"], {"t.idl": file}, octets("01"),
                lines("values 2", f"op {operation} in", f"{parameter} = 1"))


def named(name, word):
    """A file that uses a word as the name of everything."""
    return accepted(name, interface(f"void {word}([in] small {word});", name=word), word, word)


def unknown(name, file, operation):
    """A file without the operation."""
    return Case(f"plain: {name}", ["decode", "t.idl", "-", operation, "in", "little"], {"t.idl": file}, octets("01"),
                notes=lines(f"idl t.idl: NoOperation {operation}"), status=6)


def identified(name, uuid):
    """A file with this identifier."""
    return accepted(name, f"[uuid({uuid})] interface t {{ void f([in] small x); }}\n".encode())


def between(separator):
    """A file with this before, between and after all tokens."""
    tokens = "[ uuid ( 11111111-2222-3333-4444-555555555555 ) ] interface t { void f ( [ in ] small x ) ; }".split()
    return separator.join(["", *tokens, ""]).encode()


PLAIN = interface("void f([in] small x);")

LAYOUT = [
    accepted("on four lines", PLAIN),
    accepted("no separator but those between words", f"{HEADER}interface t{{void f([in]small x);}}".encode()),
    accepted("a line a token", PLAIN.replace(b" ", b"\n").replace(b"(", b"\n(\n").replace(b"[", b"\n[\n")),
    accepted("spaces and line feeds before, between and after all tokens", between(" \n ")),
    accepted("a tab between words", PLAIN.replace(b"void f", b"void\tf")),
    accepted("a tab on a line of its own", PLAIN.replace(b"\n}", b"\n\t\n}")),
    accepted("carriage returns and line feeds", PLAIN.replace(b"\n", b"\r\n")),
    accepted("carriage returns in the place of line feeds", PLAIN.replace(b"\n", b"\r")),
    accepted("a carriage return at the end", PLAIN + b"\r"),
    accepted("form feeds in the place of spaces", PLAIN.replace(b" ", b"\f")),
    accepted("each separator before, between and after all tokens", between(" \t\r\n\f")),
    accepted("1,048,576 octets", PLAIN.ljust(1_048_576)),
    accepted("1,048,576 octets, most of them in the middle", PLAIN.replace(b"\n}", b"\n" * (1_048_576 - len(PLAIN) + 1) + b"}")),
    accepted("1,024 operations", interface(*(f"void g{n}();" for n in range(1023)), "void f([in] small x);")),
]

COMMENTS = [
    accepted("a comment before", b"/* about t */ " + PLAIN),
    accepted("a comment inside", PLAIN.replace(b"small x", b"small /* first */ x")),
    accepted("a comment after", PLAIN + b"/* done */"),
    accepted("a comment and no separator", PLAIN.replace(b"void f", b"void/**/f")),
    accepted("a comment before, between and after all tokens", between("/* */")),
    accepted("comments of a star, between all tokens", between("/***/")),
    accepted("comments of several lines, between all tokens", between("/*\n one\r\n *\n * /\n **/")),
    accepted("comments one after the other", PLAIN + b"/**//*/ */ /***/ /****/\n/* */"),
    accepted("a comment does not nest", PLAIN.replace(b"void f", b"void /* /* /* */ f")),
    accepted("tokens in a comment", PLAIN.replace(b"void f", b"void /* ' \" # 010 float // void g(); } */ f")),
    accepted("an operation in a comment", PLAIN.replace(b"\n}", b"\n/* void f([in] small x); */ }")),
    accepted("any octets in a comment", PLAIN + b"/*" + bytes(range(256)) + b"*/"),
    accepted("letters past ASCII in a comment", PLAIN + "/* größe */".encode()),
    accepted("a word of 32 octets in a comment", PLAIN + b"/* " + b"n" * 32 + b" */"),
    accepted("1,048,576 octets, most of them in a comment", PLAIN + b"/*".ljust(1_048_574 - len(PLAIN)) + b"*/"),
]

NAMES = [
    identified("an identifier of letters", "aaaaaaaa-bbbb-cccc-dddd-eeeeeeeeeeee"),
    identified("an identifier in capitals", "ABCDEF01-2345-6789-ABCD-EF0123456789"),
    identified("an identifier that begins as a number with a leading zero", "01234567-89ab-cdef-0123-456789abcdef"),
    identified("an identifier that begins as a number with letters", "1a2b3c4d-0000-0000-0000-000000000000"),
    identified("an identifier that begins as a number with an exponent", "0e000000-0e00-0e00-0e00-0e0000000000"),
    identified("an identifier in comments", "/* a */00000000-0000-0000-0000-000000000000/* b */"),
    identified("an identifier with spaces around", " 00000000-0000-0000-0000-000000000000 "),
    named("names of 31 octets", "n" * 31),
    named("names of one octet", "_"),
    named("names with digits and _", "_9_a_0"),
    named("names in capitals", "VOID"),
    *(named(f"{word} as a name", word) for word in (
        # words with which an attribute begins
        "in", "out", "uuid", "version", "endpoint", "local", "pointer_default", "ref", "unique", "ptr", "string", "context_handle",
        "size_is", "max_is", "length_is", "first_is", "last_is", "switch_is", "switch_type", "idempotent", "broadcast", "maybe",
        # words that are banned where an attribute begins
        "transmit_as", "represent_as", "ignore", "handle", "reflect_deletions", "min_is", "encode", "decode",
        # others
        "class", "values", "op", "Small", "null", "true", "Float", "wchar", "include", "int64", "error_status_t", "v1_enum")),
    accepted("names that differ in case", interface("void f([in] small x);", "void F([in] hyper X, [in] hyper x);")),
    accepted("names of which one begins another",
             interface("void f([in] small x);", "void ff([in] hyper xx, [in] hyper x);", "void f_();")),
    accepted("names of 31 octets that differ in the last",
             interface(f"void {'n' * 30}a();", f"void {'n' * 30}b();", "void f([in] small x);")),
    accepted("one name for parameters of two operations", interface("void g([in] hyper x);", "void f([in] small x);")),
    accepted("a parameter named as an operation", interface("void x();", "void f([in] small x);")),
]

UNKNOWN = [
    unknown("another operation is asked for", PLAIN, "g"),
    unknown("an operation's name in capitals", PLAIN, "F"),
    unknown("the beginning of an operation's name", interface("void ff();"), "f"),
    unknown("more than an operation's name", PLAIN, "ff"),
    unknown("the interface's name", PLAIN, "t"),
    unknown("a parameter's name", PLAIN, "x"),
    unknown("an empty name", PLAIN, ""),
    unknown("a name with a space", PLAIN, "f "),
    unknown("a name with letters past ASCII", PLAIN, "größe"),
    unknown("an interface without operations", interface(), "f"),
]

CASES = LAYOUT + COMMENTS + NAMES + UNKNOWN
