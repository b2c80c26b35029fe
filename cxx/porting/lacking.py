"""Not proved (README.md). What of the standard library isn't known: clang's words about it as refusals, each with what
to write instead.

Clang sees the stub headers alone, so that a header, a name or a method that they lack is an error to it, and all that
names it another. Where such an error is there, the others are taken for its consequences and aren't told.
"""

import os
import re
from typing import Callable

INPUT = ("input", "write constants: a run has no input")
FILES = ("a file", "print to the standard output")
THREADS = ("threads", "write the program serially: told says which of its loops may run in parallel")
RANDOM = ("random numbers of the library", "draw them by rand, or by std::mt19937 with a first value of yours")
TIME = ("the time", "leave it out: a run has no clock")
STRINGS = ("letters that are put together", "put a std::string together by +=, + and std::to_string")
LETTERS = ("a function on letters", "write a loop over the letters")
MEMORY = ("a function on bytes", "write an assignment, or a loop over the items")
TABLE = ("a table of the library", "write a map, a vector, or a class of your own")
VALUES = ("a value of the library", "write a struct")
FRACTIONS = ("a number with a fraction", "write whole numbers, scaled (fixed point)")
ARGUMENTS = ("any number of arguments", "write a template, or pass a vector")
MORE = ("a function of the library", "write a loop or a function of your own")
FUNCTIONS = ("pointers to functions", "write functions by their names, lambdas, or virtual functions")
KINDS = ("typeid", "write a virtual function that tells the kind")

_NAMES = {
    INPUT: "cin scanf getchar fgets gets getc fgetc getline fscanf sscanf EOF stdin strtol getenv",
    FILES: "fopen fclose FILE ofstream ifstream fstream fwrite fread fputs fputc filesystem",
    THREADS: "thread mutex atomic async future promise jthread lock_guard unique_lock condition_variable "
    "shared_mutex barrier latch semaphore execution this_thread pthread",
    RANDOM: "random_device mt19937_64 uniform_real_distribution normal_distribution bernoulli_distribution "
    "discrete_distribution ranlux24 knuth_b drand48 srand48 lrand48",
    TIME: "time clock clock_t time_t ctime chrono CLOCKS_PER_SEC sys",
    STRINGS: "ostringstream istringstream stringstream sstream strdup string_view format fmt",
    LETTERS: "strchr strstr strtok regex locale",
    MEMORY: "memmove memcmp new",
    TABLE: "forward_list multimap multiset unordered_multimap unordered_multiset valarray span",
    VALUES: "variant any tuple complex ratio make_tuple tie get apply",
    FRACTIONS: "setprecision fixed scientific defaultfloat numbers double_t cfloat float.h",
    ARGUMENTS: "cstdarg stdarg.h va_list",
    FUNCTIONS: "function bind ref cref mem_fn invoke",
    KINDS: "typeinfo typeindex type_info",
}
WORDS = {name: told for told, names in _NAMES.items() for name in names.split()}
# What is known where its header is included; others of g++'s headers may include it.
_DECLARED = {
    "algorithm": "sort stable_sort find find_if count count_if reverse shuffle max_element min_element lower_bound "
    "upper_bound binary_search unique fill for_each any_of all_of none_of remove_if transform copy",
    "cstring": "strlen strcmp strncmp strcpy strncpy strcat memset memcpy",
    "cstdlib": "rand srand exit abs malloc free atoi atol",
    "cstdio": "printf puts putchar sprintf snprintf",
    "random": "mt19937 minstd_rand minstd_rand0 default_random_engine uniform_int_distribution",
    "numeric": "accumulate iota",
    "iterator": "next prev distance",
    "cctype": "isdigit isalpha isalnum isspace isupper islower toupper tolower",
    "list": "list",
    "bitset": "bitset",
    "optional": "optional nullopt",
    "queue": "queue priority_queue",
    "map": "map",
    "set": "set",
    "unordered_map": "unordered_map",
    "unordered_set": "unordered_set",
    "memory": "unique_ptr make_unique shared_ptr make_shared",
    "limits": "numeric_limits",
}
DECLARED = {name: header for header, names in _DECLARED.items() for name in names.split()}
_HEADER = re.compile(r"^(\S+?:\d+:\d+): fatal error: '(.+)' file not found$")
_NAMED = re.compile(
    r"^(\S+?:\d+:\d+): error: (?:no \w+|no member|no template|no type) named '(\w+)' in namespace 'std'"
)
_MEMBER = re.compile(r"^(\S+?:\d+:\d+): error: no member named '(\w+)' in 'std::(\w+)")
_ALONE = re.compile(
    r"^(\S+?:\d+:\d+): error: (?:use of undeclared identifier|unknown type name|no template named) '(\w+)'"
)
_OTHER = re.compile(r"^(\S+?:\d+:\d+): error: no matching \S+ for (?:call to|initialization of) '(?:std::)?(\w+)")


def header(line: str) -> tuple[str, str] | None:
    """The place and the name of a header that clang doesn't find."""
    found = _HEADER.match(line)
    return (found.group(1), found.group(2)) if found else None


def of_header(place: str, name: str, known: bool) -> str:
    """The refusal of a header: `known` where it is one of C++, or may be one of the user's own."""
    told = WORDS.get(name) or WORDS.get(os.path.dirname(name)) or WORDS.get(os.path.splitext(name)[0])
    if told is None and not known:
        return f"{place}: {name} isn't found; name its folder by -I"
    what = f" ({told[0]})" if told else ", a header that isn't known"
    return f"{place}: <{name}>{what}; {told[1] if told else MORE[1]}"


def refusal(line: str, declares: Callable[[str], bool]) -> str | None:
    """The refusal that an error of clang's is, where it is about something that the stub headers lack. `declares` says
    whether the user's own text has the name elsewhere, so that a slip isn't taken for the library's."""
    found = _NAMED.match(line) or _ALONE.match(line)
    if found and found.group(2) in DECLARED and not declares(found.group(2)):
        return f"{found.group(1)}: {found.group(2)} isn't declared; include <{DECLARED[found.group(2)]}>"
    found = _NAMED.match(line)
    if found:
        told = WORDS.get(found.group(2))
        what, instead = (f" ({told[0]})", told[1]) if told else (", which isn't known", MORE[1])
        return f"{found.group(1)}: std::{found.group(2)}{what}; {instead}"
    found = _MEMBER.match(line)
    if found:
        name = "string" if found.group(3) == "text_" else found.group(3)
        return f"{found.group(1)}: {found.group(2)} of std::{name}, which isn't known; {MORE[1]}"
    found = _ALONE.match(line)
    if found and found.group(2) in WORDS and not declares(found.group(2)):
        what, instead = WORDS[found.group(2)]
        return f"{found.group(1)}: {found.group(2)} ({what}); {instead}"
    found = _OTHER.match(line)
    if found and found.group(2) in ("vector", "string", "max", "min", "sort", "swap", "printf"):
        return f"{found.group(1)}: {found.group(2)} of this form, which isn't known; {MORE[1]}"
    return None
