"""JSON texts, each with what RFC 8259 says of it: valid, invalid, or either (a reader may take or refuse it).

The kinds are those of the well-known suites for JSON parsers; the texts are ours.
"""

VALID = r'''
null
true
false
0
-1
1.5
1e3
1E+3
2.5e-3
-0
-0.0
0e1
123456789012345678901234567890
9223372036854775807
-9223372036854775808
9223372036854775808
18446744073709551615
18446744073709551616
1e-400
""
"a"
"\""
"\\\/\b\f\n\r\t"
"\u0041"
"\u00e9"
"\u00E9"
"\u0000"
"\ud83d\ude00"
"\uD834\uDD1E"
"\u2028"
"é"
"😀"
"﷐"
"/"
"'"
"[]"
"a\\"
[]
[ ]
[[]]
[1]
[1,2]
[ 1 , 2 ]
[null,false,""]
[[],[[]],{}]
{}
{ }
{"a":1}
{"a":1,"a":2}
{"":0}
{"a":{"b":[{}]}}
{"a" : 1 , "b" : 2}
{"\u0061":1,"a":2}
{"a\"b":1}
'''

INVALID = r'''
nul
True
NULL
nulll
tru e
+1
01
-01
00
-
--1
1.
.5
-.5
1e
1e+
1E-
1.e1
1.5.2
0x10
0b1
1_000
1,
Infinity
-Infinity
NaN
nan
１
"
"a
a"
'a'
"\x41"
"\a"
"\u004"
"\u00G0"
"\U0041"
"\ud800"
"\ud800\u0041"
"\ud800x"
"\ud83d\ud83d"
"\ude00"
"\
"	"
"a" "b"
[
]
[1
[1,
[1,]
[,1]
[,]
[1,,2]
[1 2]
[1;2]
[1}
[1]]
(1)
{
}
{"a"}
{"a":}
{"a"1}
{"a":1
{"a":1,
{"a":1,}
{,"a":1}
{,}
{"a":1,,"b":2}
{"a":1 "b":2}
{a:1}
{'a':1}
{1:1}
{null:1}
{"a"::1}
{"a":1:2}
{"a":1]
{"a":1}}
{"a":1}{}
1 2
[] []
// 1
1 // one
/* */ 1
# 1
1 #
\u0031
<null>
@
'''

EITHER = r'''
1e999
-1e999
1e99999999999999999999
0e99999999999999999999
1e-99999999999999999999
'''

INVALID_BYTES = [
    b"",
    b" ",
    b"\xef\xbb\xbf1",
    b"\xff",
    b'"\xff"',
    b'"\xc3"',
    b'"\xc3(" ',
    b'"\xc0\xaf"',
    b'"\xe0\x80\x80"',
    b'"\xed\xa0\x80"',
    b'"\xf4\x90\x80\x80"',
    b'"\xf8\x88\x80\x80\x80"',
    b'"\xe2\x82"',
    b'"\x80"',
    b'"\x00"',
    b'"\x1f"',
    b'"\n"',
    b'"\r"',
    b"1\x00",
    b"\x001",
    b"1\x0c",
    b"\x0b1",
    b"\xc2\xa01",
    b"\xe2\x80\xa81",
    b"\xe3\x80\x801",
    b"[1\xe2\x80\x8b]",
    b'{"a"\xc2\xa0:1}',
    b'{"a":1}\xef\xbb\xbf',
    b"1\x1a",
    b'"\\\x00"',
    b'"\\\xc3\xa9"',
    b'"\\ud83d\n"',
]

VALID_BYTES = [
    b" 1",
    b"1 ",
    b"\t\n\r 1\r\n\t ",
    b"[\r\n1\t,\r2 ]",
    b'"\x7f"',
    b'"\xc2\x80"',
    b'"\xef\xbf\xbf"',
    b'"\xf4\x8f\xbf\xbf"',
    b'"\xe2\x80\xa8\xe2\x80\xa9"',
    b'"\xef\xbb\xbf"',
    b"-" + b"9" * 300,
    b"0." + b"3" * 400,
    b"1" + b"0" * 300,
    b'"' + b"x" * 70_000 + b'"',
    b"[" + b"1," * 40_000 + b"1]",
    b"[" * 100 + b"]" * 100,
    b'{"a":' * 100 + b"1" + b"}" * 100,
]

EITHER_BYTES = [b"1" * 400, b"-" + b"1" * 400, b"1" * 400 + b".5", b"0." + b"0" * 400 + b"1e401"]


def texts():
    """Gives each text with its verdict."""
    for verdict, lines, others in (
        ("valid", VALID, VALID_BYTES),
        ("invalid", INVALID, INVALID_BYTES),
        ("either", EITHER, EITHER_BYTES),
    ):
        for line in lines.strip("\n").split("\n"):
            yield verdict, line.encode("utf-8")
        for text in others:
            yield verdict, text
