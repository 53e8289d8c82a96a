"""Doctored modules: what each is, the text that makes it one, and what the check that it is for says. For targets/check."""

CALL = '  %r4 = call i32 @"handset::calls::gauge_open"(ptr %r0, ptr %r2)\n'
LAYOUT_LINE = 'target datalayout = "e-m:e-'


def with_lines(*lines):
    """Instructions more in gauge_open, where %r0 is the slice of the configuration and %a1 its length."""
    added = "".join(f"  {line}\n" for line in lines)
    return lambda text: swapped(text, CALL, added + CALL)


def with_end(*lines):
    return lambda text: text + "\n".join(lines) + "\n"


def with_other(old, new):
    return lambda text: swapped(text, old, new)


def swapped(text, old, new):
    assert old in text, f"nothing to doctor: {old}"
    return text.replace(old, new, 1)


def both(first, second):
    return lambda text: second(first(text))


EXPORT = with_end('define noundef i32 @gauge_more(i32 noundef %a0) #0 {', 'start:', '  ret i32 %a0', '}')
POINTER_READ = with_lines("%r9001 = load i64, ptr %r0, align 8, !noundef !1")
OUTSIDE = both(with_end("declare void @more(ptr)"), with_lines("call void @more(ptr %r0)"))
FLOAT = with_lines("%r9001 = sitofp i64 %a1 to float", "%r9002 = alloca float, align 4", "store volatile float %r9001, ptr %r9002, align 4")
VARIABLE_FRAME = with_lines("%r9001 = alloca i8, i64 %a1, align 1", "store volatile i8 0, ptr %r9001, align 1")
OTHER_NUMBER = with_other("add nuw i32 32, %r", "add nuw i32 31, %r")

GRAMMAR = {
    "a float": FLOAT,
    "a new external symbol": OUTSIDE,
    "a frame of variable size": VARIABLE_FRAME,
    "a pointer as a number": with_lines("%r9001 = ptrtoint ptr %r0 to i64"),
    "a number as a pointer": with_lines("%r9001 = inttoptr i64 %a1 to ptr"),
    "pointers compared": with_lines("%r9001 = icmp eq ptr %r0, %r2"),
    "a null pointer": with_lines("store ptr null, ptr %r0, align 8"),
    "an integer of 128 bits": with_lines("%r9001 = zext i64 %a1 to i128"),
    "a vector": with_lines("%r9001 = alloca <4 x i32>, align 8"),
    "an array of pointers": with_lines("%r9001 = alloca [2 x ptr], align 8"),
    "an alignment of 16": with_lines("%r9001 = alloca i64, align 16"),
    "a volatile access": with_lines("store volatile i64 0, ptr %r0, align 8"),
    "steps of a type": with_lines("%r9001 = getelementptr i64, ptr %r0, i64 1"),
    "a copy of variable length": with_lines("call void @llvm.memmove.p0.p0.i64(ptr %r0, ptr %r2, i64 %a1, i1 false)"),
    "another intrinsic": both(with_end("declare i64 @llvm.bswap.i64(i64)"), with_lines("%r9001 = call i64 @llvm.bswap.i64(i64 %a1)")),
    "a call by pointer": with_lines("%r9001 = call i32 %r0(ptr %r2)"),
    "inline assembler": with_lines('call void asm sideeffect "nop", ""()'),
    "a variable": with_end("@counter = internal global i32 0"),
    "another name": with_end("@gauge_alias = alias i32 (ptr, i64, ptr, i64), ptr @gauge_open"),
    "another layout": with_other(LAYOUT_LINE, 'target datalayout = "E-m:e-'),
    "another attribute": with_other("attributes #0 = { nounwind ", "attributes #0 = { nounwind noinline "),
}

SLOT = "%r9001 = alloca [16 x i8], align 8"
COPY = "call void @llvm.memmove.p0.p0.i64(ptr %r9001, ptr %r0, i64 {}, i1 false)"

POINTERS = {
    "read as a number": (POINTER_READ, "as a number"),
    "written as a number": (with_lines("store i32 0, ptr %r0, align 8"), "as a number"),
    "its second half read": (
        with_lines("%r9001 = getelementptr i8, ptr %r0, i64 4", "%r9002 = load i8, ptr %r9001, align 1, !noundef !1"),
        "as a number",
    ),
    "filled with zeros": (with_lines("call void @llvm.memset.p0.i64(ptr %r0, i8 0, i64 16, i1 false)"), "as a number"),
    "a copy read as a number": (with_lines(SLOT, COPY.format(16), "%r9002 = load i64, ptr %r9001, align 8, !noundef !1"), "as a number"),
    "copied in part": (with_lines(SLOT, COPY.format(4)), "copies a part"),
    "read at an unknown place": (
        with_lines("%r9001 = getelementptr i8, ptr %r0, i64 %a1", "%r9002 = load i8, ptr %r9001, align 1, !noundef !1"),
        "as a number",
    ),
    "made of a number": (
        with_lines(SLOT, "store i64 %a1, ptr %r9001, align 8", "%r9002 = load ptr, ptr %r9001, align 8, !noundef !1"),
        "as a number",
    ),
    "read in part as a pointer": (
        with_lines("%r9001 = getelementptr i8, ptr %r0, i64 2", "%r9002 = load ptr, ptr %r9001, align 1, !noundef !1"),
        "",
    ),
    "handed over as a number": (with_lines('%r9001 = call i32 @"handset::calls::gauge_open"(ptr %r0, i64 %a1)'), "other types"),
    "left in the caller's buffer": (with_lines("store ptr %r0, ptr %a2, align 8"), ""),
}

EXPORTS = {
    "another export": (EXPORT, "gauge_more is exported"),
    "an export less": (with_other("define noundef i32 @gauge_open(", "define internal noundef i32 @gauge_open("), "gauge_open is None"),
    "an export with a float": (with_other("@gauge_rest(ptr noundef %a0, i64 noundef %a1, i32", "@gauge_rest(ptr noundef %a0, i64 noundef %a1, float"), "gauge_rest"),
    "a length of 32 bits": (with_other("@gauge_rest(ptr noundef %a0, i64", "@gauge_rest(ptr noundef %a0, i32"), "gauge_rest"),
    "a parameter more": (with_other("@gauge_rest(", "@gauge_rest(ptr noundef %a9, "), "gauge_rest"),
}

# Through the whole build: the kept module and an archive that was compiled from it.
BUILT = {
    "a pointer read as a number": (POINTER_READ, "pointers: "),
    "a new external symbol": (OUTSIDE, "grammar: "),
    "a float": (FLOAT, "grammar: "),
    "another export": (EXPORT, "exports: "),
}
