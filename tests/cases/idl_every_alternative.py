"""The grammar of IDL as a whole: one text with every alternative, cut and disturbed after each token; and 64 and 65 brackets and operators of all kinds.

Where the grammar is refused line by line is in idl_syntax.py.
"""

import idl
from case import interface
from idl import MARK


def fault(name, what, text):
    """A decoding by a file that is refused at the mark."""
    return idl.fault(what, text, name)


def export(name, what, text):
    """A file of one declaration. One bracket is open there."""
    return fault(name, what, interface(text))


def taken(name, text):
    """A file of one declaration that is of the language. The first fault is the empty declaration after it."""
    return export(name, "Syntax", f"{text}{MARK};")


# ----------------------------------------------------------------------------------------------------------------------
# One text with every alternative

EVERY = """
[ uuid ( 11111111-2222-3333-4444-555555555555 ) , version ( 1 . 2 ) , version ( 3 ) , endpoint ( "a" , "b" ) , local , pointer_default ( ref ) ]
interface t {
import "a.idl" , "b.idl" ;
import "c.idl" ;
const char * TEXT = "x" ;
const void * NOTHING = NULL ;
const unsigned char LETTER = 'c' ;
const long FLAGS = TRUE ? FALSE : A || B && C | D ^ E & 1 == 2 != 3 < 4 > 5 <= 6 >= 7 << 8 >> 9 + 10 - 11 * 12 / 13 % 14 ;
const hyper SIGNS = + 1 - - ( ~ 0x2 ) + ! 3 ;
typedef [ unique , ptr , string , ref ] pipe small * a , * * b [ ] , c [ * ] [ 3 ] , d [ 0 .. * ] [ 0 .. 3 ] ;
typedef [ switch_type ( unsigned short int ) ] short unsigned int e ;
typedef [ switch_type ( name ) ] unsigned hyper f ;
typedef handle_t g ;
typedef byte h , i ;
typedef boolean j ;
[ maybe ] struct k ;
struct k { long l ; [ size_is ( * n ) , max_is ( n ) ] name m , * n [ ] ; } ;
typedef struct { char a ; } l ;
union m ;
union m switch ( long n ) o { case 1 : case 2 + 3 : long a ; default : ; case 4 : [ string ] char * b ; } ;
typedef union switch ( name n ) { default : [ ref ] ; } n ;
typedef [ switch_type ( char ) ] union o { [ case ( 1 , 2 + 3 ) ] long a ; [ default ] ; ; name b ; } p ;
typedef union { long a ; } q ;
enum r ;
enum r { A , B = 3 , C } ;
typedef enum { D } s ;
[ idempotent , broadcast , maybe ] void t ( [ in ] handle_t a , [ out , context_handle ] void * * b ) ;
unsigned small u ( void ) ;
name v ( ) ;
struct k w ( void * a , [ length_is ( n ) , first_is ( * n ) , last_is ( n ) , switch_is ( n ) ] union m b , enum r c ) ;
}
"""

TOKENS = EVERY.split()


def begun(count):
    """The first tokens of the text."""
    return "".join(f"{token} " for token in TOKENS[:count])


# Nothing follows a whole file.
WHOLE = [
    fault("after every alternative", "Syntax", f"{' '.join(TOKENS)} {MARK};"),
    fault("after every alternative, on lines", "Syntax", f"{EVERY}{MARK};"),
]

# Where the text ends early it is only the beginning of one. `interface` goes on with the attributes of the file alone, and a
# word that is banned anywhere with nothing.
CUT = [fault(f"the end after {count} tokens", "Syntax", begun(count) + MARK) for count in range(len(TOKENS))]
WRONG = [
    fault(f"a wrong word after {count} tokens", "Syntax", f"{begun(count)}{MARK}interface")
    for count in range(len(TOKENS) + 1) if TOKENS[count:count + 1] != ["interface"]
]
BANNED = [fault(f"a banned word after {count} tokens", "Banned float", f"{begun(count)}{MARK}float") for count in range(len(TOKENS) + 1)]

# ----------------------------------------------------------------------------------------------------------------------
# At most 64 brackets are open, of all kinds together. The interface's own is one of them


def most(name, front, opening, count, middle, closing, after):
    """A declaration with as many brackets of a kind as may be open there, and the same with one more."""
    word = opening.rstrip("({ ")
    one_more = word + opening[len(word):].replace("(", MARK + "(").replace("{", MARK + "{")
    return [
        taken(f"{name}, as many as there may be", front + opening * count + middle + closing * count + after),
        export(f"{name}, one too many", "Deep", front + opening * count + one_more + middle + closing * (count + 1) + after),
    ]


def round_brackets(front, count, after):
    """An expression in as many round brackets as may be open there, and in one more."""
    return most(f"round brackets in {front}", front, "(", count, "1", ")", after)


def in_structs(count, member):
    """A member in so many bodies of structs. As many brackets and one are open there."""
    return "typedef " + "struct { " * count + member + " } a;" * count


def in_brackets(wrong):
    """A value after so many round brackets that 64 are open."""
    return "const long A = " + "(" * 63 + wrong


def last(bodies, *members):
    """Members in so many bodies that their marked bracket is one too many, and in one body less."""
    return [
        case for member in members for plain in [member.replace(MARK, "")] for case in (
            taken(f"the 64th bracket in {plain}", in_structs(bodies - 1, plain)),
            export(f"the 65th bracket in {plain}", "Deep", in_structs(bodies, member)))
    ]


BRACKETS = [
    *most("bodies of structs", "typedef ", "struct { ", 63, "long", " a; }", " a;"),
    *most("bodies of unions", "typedef ", "union { ", 63, "long", " a; }", " a;"),
    *round_brackets("const long A = ", 63, ";"),
    *round_brackets("typedef long a[", 62, "];"),
    *round_brackets("typedef long a[0 .. ", 62, "];"),
    *round_brackets("enum e { A, B = ", 62, " };"),
    *round_brackets("union u switch (long k) { case ", 62, ": ; };"),
    *round_brackets("typedef [case((1), ", 61, ")] long a;"),
    *round_brackets("union u { [case(", 60, ")] ; };"),
    *round_brackets("long g([in] long a, [case(", 60, ")] long b);"),
    *round_brackets("struct s { [in] union { long a; long b[", 60, "]; } c; };"),
    *last(63, "struct b §{ long c; } d;", "union b §{ ; } c;", "enum §{ A } b;", "union switch §(long k) { default: ; } b;",
          "§[string] char b;", "long b§[];", "long b, *c§[*];"),
    *last(62, "[uuid§(11111111-2222-3333-4444-555555555555)] long b;", "[version§(1.2)] long b;", '[endpoint§("a")] long b;',
          "[pointer_default§(ref)] long b;", "[size_is§(n)] long b;", "[in, switch_is§(*n)] long b;", "[switch_type§(long)] long b;",
          "[case§(1)] long b;", "long b[§(1)];", "long b[1][2 .. §(3)];", "enum { A = §(1) } b;", "union b switch (long k) { case §(1): ; } c;"),
    # Brackets that are closed do not count.
    taken("65 pairs of round brackets", "const long A = (1)" + " + (1)" * 64 + ";"),
    taken("100 pairs of square brackets", "typedef long a" + "[(1)]" * 100 + ";"),
    # A bracket that could not be there at all is a fault of syntax, as any other token is.
    *(export(f"{wrong} after 64 open brackets", "Syntax", in_brackets(MARK + wrong)) for wrong in ("{", "[", ")", "*", "struct")),
    export("a bracket after a number after 64 open brackets", "Syntax", in_brackets("1 §(1)")),
    *(export(f"{wrong} where a member is due, after 64 open brackets", "Syntax", in_structs(63, MARK + wrong)) for wrong in ("(", "{", "}", ";")),
    # Of several faults the first is reported.
    export("a banned word after 64 open brackets", "Banned float", in_brackets("§float")),
    export("a banned attribute after 64 open brackets", "Banned handle", in_structs(62, "[§handle(a)] long b;")),
    export("one bracket too many before a wrong token", "Deep", in_brackets("§(;")),
    export("one bracket too many before a banned word", "Deep", in_brackets("§( float")),
    export("one bracket too many before a banned attribute", "Deep", in_structs(63, "§[handle] long b;")),
    export("brackets after a wrong token", "Syntax", "const long A = 1 §2 + " + "(" * 65),
]

# ----------------------------------------------------------------------------------------------------------------------
# At most 64 operators are in one outermost expression

BINARY = "|| && | ^ & == != < > <= >= << >> + - * / %".split()
UNARY = "+ - ~ !".split()
SUM = "1" + " + 1" * 64


def value(name, expression):
    """A constant of an expression that is taken."""
    return taken(name, f"const long A = {expression};")


def refused(name, what, expression):
    """A constant of an expression that is refused at its mark."""
    return export(name, what, f"const long A = {expression};")


def in_each(front, between, after):
    """Expressions of 64 operators each, and the same with one more in the last."""
    text, name = front + SUM + between + SUM, f"{front}A{between}B{after}"
    return [taken(f"64 operators each in {name}", text + after), export(f"65 operators in B in {name}", "Deep", text + " §- 1" + after)]


# Seven operators each but the first, which has six: with two after them they are 64.
ALL_KINDS = " || ".join(["(-1 + ~2 * !3 ? 4 : 5)"] * 9) + " && -7"
TWO_SIDES = "(1" + " + 1" * 32 + ") * (1" + " - 1" * 31 + ")"

OPERATORS = [
    *(value(f"64 operators {operator}", "1" + f" {operator} 1" * 64) for operator in BINARY),
    *(refused(f"65 operators {operator}", "Deep", "1" + f" {operator} 1" * 64 + f" §{operator} 1") for operator in BINARY),
    *(value(f"64 unary operators {operator}", f"{operator} " * 64 + "1") for operator in UNARY),
    *(refused(f"65 unary operators {operator}", "Deep", f"{operator} " * 64 + f"§{operator} 1") for operator in UNARY),
    value("64 operators ?:, one in the third part of another", "1 ? 2 : " * 64 + "3"),
    refused("65 operators ?:, one in the third part of another", "Deep", "1 ? 2 : " * 64 + "3 §? 4 : 5"),
    value("64 operators ?:, one in the second part of another", "1 ? " * 64 + "2" + " : 3" * 64),
    refused("65 operators ?:, one in the second part of another", "Deep", "1 ? " * 64 + "2 §? 3 : 4" + " : 5" * 64),
    value("64 operators of all kinds", ALL_KINDS),
    refused("65 operators of all kinds", "Deep", ALL_KINDS + " §% 8"),
    refused("65 operators of all kinds, the last ?:", "Deep", ALL_KINDS + " §? 8 : 9"),
    value("64 operators on two sides in brackets", TWO_SIDES),
    refused("65 operators on two sides in brackets", "Deep", TWO_SIDES + " §/ 2"),
    refused("a unary operator after 64 others", "Deep", "1" + " + 1" * 63 + " + §-1"),
    value("64 operators and 64 brackets", "-(" * 63 + "-1" + ")" * 63),
    value("64 operators in 64 brackets", "(" * 63 + SUM + ")" * 63),
    refused("65 operators in 64 brackets", "Deep", "(" * 63 + SUM + " §+ 1" + ")" * 63),
    refused("65 operators and 64 brackets", "Deep", "-(" * 63 + "- §-1" + ")" * 63),
    # Stars, bounds and colons are none.
    taken("65 stars", "typedef long " + "*" * 65 + "a;"),
    taken("65 bounds", "typedef long a" + "[*]" * 65 + ";"),
    # Each of these is an expression by itself.
    *in_each("const long B = ", "; const long A = ", ";"),
    *in_each("typedef long a[", " .. ", "];"),
    *in_each("typedef long a[", "][", "];"),
    *in_each("enum e { A = ", ", B = ", " };"),
    *in_each("union u switch (long k) { case ", ": case ", ": ; };"),
    *in_each("typedef [case(", ", ", ")] long a;"),
    *in_each("union u { [case(", ")] long a; [case(", ")] long b; };"),
    # An operator that could not be there at all is a fault of syntax, as any other token is.
    *(refused(f"{wrong} after 64 operators", "Syntax", f"{SUM} {MARK}{wrong} 1") for wrong in ("!", "~", "(", "1", ":", "=", ")")),
    *(refused(f"{wrong} in place of an operand after 64 operators", "Syntax", f"{SUM[:-1]}{MARK}{wrong} 1") for wrong in ("*", "==", "?", ")")),
    # Of several faults the first is reported.
    refused("a banned word after 64 operators", "Banned double", f"{SUM} §double"),
    refused("a banned word as an operand after 64 operators", "Banned double", f"{SUM[:-1]}§double"),
    refused("one operator too many before a wrong token", "Deep", f"{SUM} §+ *"),
    refused("one operator too many before a banned word", "Deep", f"{SUM} §+ float"),
    refused("one operator too many before one bracket too many", "Deep", "(" * 63 + f"{SUM} §+ (1"),
    refused("one bracket too many before one operator too many", "Deep", "(" * 63 + f"§({SUM} + 1"),
    refused("one operator too many after a wrong token", "Syntax", f"1 §2 + {SUM}"),
]

CASES = WHOLE + CUT + WRONG + BANNED + BRACKETS + OPERATORS
