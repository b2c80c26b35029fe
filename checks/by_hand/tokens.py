"""Rows on tokens: bytes, comments, numbers, names and operators, and the limits on their number and on the size."""

from by_hand.forms import main_of, ok, refused, refused_at

ROWS = [
    # the end of a text, and comments
    refused("no text", "", "1:1", "E10"),
    refused("a comment alone", "// abc", "1:7", "E10"),
    refused("two line ends alone", "\n\n", "3:1", "E10"),
    refused("a comment without end", "int main() { } /* abc", "1:16", "E01"),
    refused("`/*/` opens a comment alone", "int main() { } /*/", "1:16", "E01"),
    ok("a line comment at the end", "int main() { } // abc"),
    ok("an empty comment", "int main() { } /**/"),
    ok("stars and strokes in comments", "int main() { } /***/ /*/*/ // /*"),
    ok("comments in the place of spaces", "int/**/main(/* // */)// */ /*\n{ }"),
    refused("a place behind a comment of two lines", "int main() { } /* \n */ x", "2:5", "E10"),
    ok("marks are comments", main_of("/*@lock*/ /*@anything*/ print(1); //@lock\n"), "1\n"),
    # spaces and line ends
    ok("a carriage return is a space", "int main() {\r\n\t}\r\n"),
    refused("a carriage return ends no line", "int main() {\r }}", "1:16", "E10"),
    ok("spaces round each token", "int main ( ) { long x=1 ; x +=2;x-=1 ;x*= 5;x ++;x--; print(x) ; }", "10\n"),
    refused("`--` is one token before a number", main_of("print(--1);"), "1:20", "E10"),
    refused("`+ =` in two", main_of("long x; x + = 1;"), "1:24", "E10"),
    refused("`- >` in two", main_of("long x; x - > y = 1;"), "1:24", "E10"),
    # bytes that begin no token
    refused("a form feed", "int main() { \x0c }", "1:14", "E01"),
    refused("a byte above 127, behind a comment with others", "int main() { /* \xc3\xa9 */ \xff }", "1:23", "E01"),
    refused("a byte 0", "\x00", "1:1", "E01"),
    refused_at("a byte order mark", "@\xef\xbb\xbfint main() { }", "E01"),
    *[refused(f"the byte {letter}", main_of(letter), "1:14", "E01") for letter in "\"'#@~?.\\`$"],
    refused_at("a quote", main_of("print(@'a');"), "E01"),
    refused_at("a dot behind a name", "class A { public: long n; };\nint main() { A *a; a@.n = 1; }", "E01"),
    refused("one `&`", main_of("bool b = true & false;"), "1:28", "E25"),
    refused("three `&`", main_of("bool b = true &&& false;"), "1:30", "E10"),
    refused("one `|`", main_of("bool b = true | false;"), "1:28", "E25"),
    refused("three `|`", main_of("bool b = true ||| false;"), "1:30", "E10"),
    refused("`&|`", main_of("bool b = true &| false;"), "1:29", "E10"),
    refused("`^` alone", main_of("^"), "1:14", "E10"),
    # numbers
    ok(
        "the least and the greatest number", main_of("print(0); print(9223372036854775807);"),
        "0\n9223372036854775807\n",
    ),
    refused("two zeros", main_of("long x = 00;"), "1:23", "E01"),
    refused("zeros before a digit", main_of("long x = 007;"), "1:23", "E01"),
    refused("a letter behind a zero", main_of("long x = 0x1;"), "1:24", "E01"),
    refused("a letter behind digits", main_of("long x = 12a;"), "1:25", "E01"),
    refused("an underscore behind a digit", main_of("long x = 1_;"), "1:24", "E01"),
    refused("a zero before a digit, and a letter behind it", main_of("long x = 01a;"), "1:23", "E01"),
    refused("a wide number, and a letter behind it", main_of("long x = 9223372036854775808x;"), "1:23", "E02"),
    refused("the number behind a minus counts alone", main_of("print(-9223372036854775808);"), "1:21", "E02"),
    refused("2 to the 64th", main_of("long x = 18446744073709551616;"), "1:23", "E02"),
    refused("2 to the 64th, and 1", main_of("long x = 18446744073709551617;"), "1:23", "E02"),
    refused("a hundred digits", main_of("long x = " + "9" * 100 + ";"), "1:23", "E02"),
    refused("a zero before a hundred digits", main_of("long x = 0" + "9" * 100 + ";"), "1:23", "E01"),
    refused(
        "a wide number behind one in a comment, before a bad byte",
        main_of("/* 99999999999999999999 */ long x = 99999999999999999999; $"), "1:50", "E02",
    ),
    # names
    ok(
        "names that begin like key words",
        main_of(
            "long classx = 1; long _ = 2; long Int = 3; long print1 = 4; long mainx = 5; long __9 = 6; "
            "print(classx+_+Int+print1+mainx+__9);"
        ),
        "21\n",
    ),
    *[
        refused(f"the key word {word} as a name", main_of(f"long {word};"), "1:19", "E10")
        for word in (
            "class public long bool int void if else while for return new nullptr this true false print main "
            "max min".split()
        )
    ],
    # the longest token counts
    refused("three `+`", main_of("long x; x+++1;"), "1:25", "E10"),
    refused("`--` and then `->`", main_of("long x; x--->y = 1;"), "1:25", "E10"),
    ok(
        "two `-` with a space between",
        main_of("long x = 5; long y = x - -1; print(y); print(x- -x); print(- - -x); print(!!true);"),
        "6\n10\n-5\ntrue\n",
    ),
    refused("`--` behind a name in an expression", main_of("long x; long y = x--1;"), "1:32", "E10"),
    refused("`<=` and then `=`", main_of("bool b = 1 <== 2;"), "1:27", "E10"),
    refused("`==` and then `=`", main_of("bool b = 1 === 2;"), "1:27", "E10"),
    refused("there is no `/=`", main_of("long x; x /= 2;"), "1:24", "E10"),
    refused("there is no `%=`", main_of("long x; x %= 2;"), "1:24", "E10"),
    ok("`//` in an expression begins a comment", "int main() { long x = 6//2;\n/ 3; print(x); }", "2\n"),
    # the limit on tokens: `int main() {` has 5, `;` from column 13 on
    ok("262,144 tokens", "int main() {" + ";" * 262138 + "}"),
    refused("262,145 tokens", "int main() {" + ";" * 262139 + "}", "1:262152", "E03"),
    refused("a token past the limit behind a comment", "int main() {" + ";" * 262139 + "/*}*/ /", "1:262158", "E03"),
    refused("a wide number past the limit", "int main() {" + ";" * 262139 + "9223372036854775808", "1:262152", "E02"),
    refused("two zeros past the limit", "int main() {" + ";" * 262139 + "00", "1:262152", "E01"),
    refused("a bad byte past the limit", "int main() {" + ";" * 262139 + "$", "1:262152", "E01"),
    refused(
        "a number past the limit that a letter follows", "int main() {" + ";" * 262139 + "12ab", "1:262152", "E03",
    ),
    refused("a number at the limit that a letter follows", "int main() {" + ";" * 262138 + "12ab", "1:262153", "E01"),
    refused("a comment without end past the limit", "int main() {" + ";" * 262139 + "/*", "1:262152", "E01"),
    refused("one `&` past the limit", "int main() {" + ";" * 262139 + "&", "1:262152", "E03"),
    refused("the limit before an earlier wrong token", "}int main() {" + ";" * 262139 + "}", "1:262152", "E03"),
    refused("a bad byte before the limit", "int main() {" + ";" * 262000 + "$" + ";" * 300, "1:262013", "E01"),
    # the limit on the size
    refused("the size before the first byte", "$" * 1048577, "0:0", "E04"),
    refused("1,048,576 spaces", " " * 1048576, "1:1048577", "E10"),
    refused("1,048,576 line ends", "\n" * 1048576, "1048577:1", "E10"),
    ok("a program of 1,048,576 bytes", "int main() { }" + " " * (1048576 - 14)),
]
