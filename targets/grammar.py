"""The closed grammar of a module that may be compiled for another target: every line of its text is one of these shapes.

None of them means something else where pointers or lengths have another size: no pointer is turned into a number or compared, no type but a pointer
and integers has a layout, and no alignment is above 8. What is new here is looked at by a person before it is added.
"""
import re

from refused import Refused

INTEGER = r"(?:i1|i8|i16|i32|i64)"
STORED = r"(?:i8|i16|i32|i64)"
LOCAL = r"%[ar]\d+"
LABEL = r"%(?:start|[a-z]+\.\d+)"
NUMBER = r"(?:-?\d+|true|false)"
VALUE = rf"(?:{LOCAL}|{NUMBER})"
FUNCTION = r'@(?:"[A-Za-z0-9_:]+"|gauge_[a-z]+)'
ALIGNED = r"align [1248]"
ARGUMENT = rf"(?:{INTEGER} {VALUE}|ptr {LOCAL})"
PARAMETER = rf"(?:{INTEGER}|ptr) noundef(?: zeroext)? %a\d+"
ANSWER = rf"(?:noundef (?:zeroext )?{INTEGER}|void)"
OPERATIONS = "add|sub|mul|udiv|urem|sdiv|srem|and|or|xor|shl|lshr|ashr"
COMPARISONS = "eq|ne|ult|ule|ugt|uge|slt|sle|sgt|sge"


def list_of(one):
    return rf"(?:{one}(?:, {one})*)?"


INSTRUCTIONS = [
    rf"{LOCAL} = alloca (?:{STORED}|ptr|\[\d+ x i8\]), {ALIGNED}",
    rf"{LOCAL} = load {STORED}, ptr {LOCAL}, {ALIGNED}(?:, !range !\d+)?, !noundef !\d+",
    rf"{LOCAL} = load ptr, ptr {LOCAL}, {ALIGNED}, !noundef !\d+",
    rf"store {STORED} {VALUE}, ptr {LOCAL}, {ALIGNED}",
    rf"store ptr {LOCAL}, ptr {LOCAL}, {ALIGNED}",
    rf"{LOCAL} = getelementptr(?: inbounds)?(?: nuw)? i8, ptr {LOCAL}, i64 {VALUE}",
    rf"{LOCAL} = (?:{OPERATIONS})(?: nuw)?(?: nsw)?(?: exact)? {INTEGER} {VALUE}, {VALUE}",
    rf"{LOCAL} = icmp (?:{COMPARISONS}) {INTEGER} {VALUE}, {VALUE}",
    rf"{LOCAL} = (?:zext|sext|trunc)(?: nneg)?(?: nuw)?(?: nsw)? {INTEGER} {VALUE} to {INTEGER}",
    rf"{LOCAL} = call {INTEGER} {FUNCTION}\({list_of(ARGUMENT)}\)",
    rf"call void {FUNCTION}\({list_of(ARGUMENT)}\)",
    rf"call void @llvm\.memmove\.p0\.p0\.i64\(ptr {LOCAL}, ptr {LOCAL}, i64 \d+, i1 false\)",
    rf"call void @llvm\.memset\.p0\.i64\(ptr {LOCAL}, i8 \d+, i64 \d+, i1 false\)",
    r"call void @llvm\.trap\(\)",
    rf"{LOCAL} = call i32 @llvm\.ctlz\.i32\(i32 {VALUE}, i1 false\)",
    rf"br label {LABEL}",
    rf"br i1 {VALUE}, label {LABEL}, label {LABEL}",
    rf"switch {STORED} {LOCAL}, label {LABEL} \[",
    rf"  {STORED} {NUMBER}, label {LABEL}",
    r"\]",
    rf"ret {INTEGER} {VALUE}",
    r"ret void",
    r"unreachable",
]

FUNCTION_WORDS = '{ nounwind "probe-stack"="inline-asm" "target-cpu"="x86-64" }'
LAYOUT = "e-m:e-p270:32:32-p271:32:32-p272:64:64-i64:64-i128:128-f80:128-n8:16:32:64-S128"
KINDS = r"(?:argmem|inaccessiblemem): (?:read|write|readwrite)"
INTRINSIC_WORDS = rf"(?:nocallback|nofree|nosync|nounwind|willreturn|speculatable|cold|noreturn|memory\((?:none|{KINDS})\))"

OUTSIDE = [
    r"",
    r";.*",
    r'source_filename = "rattle"',
    re.escape(f'target datalayout = "{LAYOUT}"'),
    r'target triple = "x86_64-unknown-linux-gnu"',
    rf"define (?:internal )?{ANSWER} {FUNCTION}\({list_of(PARAMETER)}\) #0 \{{",
    r"(?:start|[a-z]+\.\d+):(?: +; preds = .*)?",
    r"\}",
    r"declare void @llvm\.memmove\.p0\.p0\.i64\(ptr writeonly captures\(none\), ptr readonly captures\(none\), i64, i1 immarg\) #\d+",
    r"declare void @llvm\.memset\.p0\.i64\(ptr writeonly captures\(none\), i8, i64, i1 immarg\) #\d+",
    r"declare void @llvm\.trap\(\) #\d+",
    r"declare i32 @llvm\.ctlz\.i32\(i32, i1 immarg\) #\d+",
    r"attributes #0 = " + re.escape(FUNCTION_WORDS),
    rf"attributes #[1-9]\d* = \{{ {INTRINSIC_WORDS}(?: {INTRINSIC_WORDS})* \}}",
    r"!llvm\.ident = !\{!\d+\}",
    r'!\d+ = !\{!"rattle logic=[0-9a-f]{64}"\}',
    r"!\d+ = !\{\}",
    rf"!\d+ = !\{{{STORED} \d+, {STORED} \d+\}}",
]

SHAPE = re.compile("|".join([rf"  (?:{one})" for one in INSTRUCTIONS] + [f"(?:{one})" for one in OUTSIDE]))


def check_grammar(text):
    """The number of lines. The first that is of no shape is refused."""
    lines = text.splitlines()
    for number, line in enumerate(lines, 1):
        if not SHAPE.fullmatch(line):
            raise Refused(f"grammar: line {number} is of no known shape: {line.strip()}")
    return len(lines)
