# For GNU sed -E: does to a file for MIDL what is the same in most files of Windows (docs/BRINGING-YOUR-IDL.md).
#
# It knows the pointers of windows.idl, and those that the file's own typedefs declare before their use. It changes no octets: what it does not know it
# leaves as it is, and the compiler refuses it. tests/cases/windows.py has the octets of each line.

# The hold space has the names of pointers: those of windows.idl, and then the typedefs of the file.
1 {
  x
  s/$/*PBYTE, *LPBYTE, *PBOOLEAN, *PCHAR, *PUCHAR, *PWCHAR, *LPWSTR, *PWSTR, *LPCWSTR, *PWORD, *LPWORD, *PUSHORT, *PSHORT, *PDWORD, *LPDWORD,/
  s/$/*PULONG, *PLONG, *LPLONG, *LPINT, *PBOOL, *LPBOOL, *PLONG64, *PDWORDLONG, *PACCESS_MASK, *PSECURITY_INFORMATION, *PFILETIME, *LPFILETIME,/
  s/$/*PLARGE_INTEGER, *PULARGE_INTEGER, *PGUID, *PRPC_SID, *PSID, *PRPC_UNICODE_STRING;/
  x
}

# An attribute list, the type after it and a typedef's names are brought into one line.
s/[\t\r]/ /g
:join
/\[[^]]*$/ b next
/\] *$/ { /\b(uuid|version|pointer_default) *\(/! b next; }
/\] *\w+ *$/ b next
/^ *typedef [^;{]*$/ b next
/^ *\}[^;]*$/ b next
b joined
:next
$! { N; s/ *\n */ /; b join; }
:joined

# The header, and blanks in attribute lists
s/uuid\("([^"]*)"\)/uuid(\1)/
s/version\("([^"]*)"\)/version(\1)/
s/^ *import .*; *$//
s/\[ +/[/g
s/ +\]/]/g
:comma
s/(\[[^]]*[^ ]) +,/\1,/; t comma
s/(\[[^]]*,)([^] ])/\1 \2/; t comma
s/, *ms_union\b//
s/\[ms_union, /[/

# A type that is a binding handle is sent as a plain type, and a constant value as any other.
s/\[handle\] *//g
s/\[handle, /[/g
s/(\[[^]]*), handle\b([^]]*\])/\1\2/g
s/\] *const +/] /g

# Wide strings
s/\[string\] *((wchar_t|WCHAR) *\*|(LPWSTR|PWSTR|LPCWSTR)\b)/wide_text */g
s/\[string, ([^]]*\]) *((wchar_t|WCHAR) *\*|(LPWSTR|PWSTR|LPCWSTR)\b)/[\1 wide_text */g
s/(\[[^]]*), string\b([^]]*\]) *((wchar_t|WCHAR) *\*|(LPWSTR|PWSTR|LPCWSTR)\b)/\1\2 wide_text */g

# The letters of an RPC_UNICODE_STRING, whose counts are in octets
s/\[size_is\(MaximumLength ?\/ ?2\), length_is\(Length ?\/ ?2\)\] *(wchar_t|WCHAR) *\*/wide_text */
s/\bwchar_t\b/WCHAR/g

# `string` says nothing more of a type that is a wide string by its name.
G
:string
s/\[string\] *(\w+)( [^\n]*\n.*\bwide_text \* *\1 *[,;])/\1\2/; t string
s/\[string, ([^]]*\]) *(\w+)( [^\n]*\n.*\bwide_text \* *\2 *[,;])/[\1 \2\3/; t string
s/(\[[^]]*), string\b([^]]*\]) *(\w+)( [^\n]*\n.*\bwide_text \* *\3 *[,;])/\1\2 \3\4/; t string

# A parameter whose type is a pointer by its name, without a class, is a reference pointer.
s/(\[[^]]*\b(ref|unique|ptr)\b[^]]*)\]/\1!]/g
:ref
s/\[((in|out)\b[^]!]*|[^]!]*, (in|out)\b[^]!]*)\] *(\w+)( [ *]*\w+ *([,)][^\n]*)?\n.*\* *\4 *[,;])/[\1, ref!] \4\5/; t ref
s/\n.*//
s/!\]/]/g

# From here on the typedef's names of pointers are known. A context handle is none, and a class in the typedef stays.
/^ *(typedef\b|\}).*;/ { /context_handle|\bvoid\b|typedef \[[^]]*\b(ref|unique|ptr)\b/! H; }

s/^(interface .*)\{$/\1{\n  import "examples\/real\/windows.idl";/
/^interface [^{]*$/,/^\{/ s/^\{$/{\n  import "examples\/real\/windows.idl";/
