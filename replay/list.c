#include "list.h"

#include "bench_pack.h"
#include "words.h"

#include <stdlib.h>
#include <string.h>

enum { LINE_LENGTH_MAX = 1000, FIRST_ROOM = 1024 };

static const char *const bench_heading[] = {"c", "v", "t"};
static const char *const bench_word[] = {"bench"};

static bool append(struct list *list, const struct call *call)
{
    if (list->count == list->room) {
        size_t room = list->room == 0 ? FIRST_ROOM : 2 * list->room;
        if (room > SIZE_MAX / sizeof *list->calls)
            return false;
        struct call *calls = realloc(list->calls, room * sizeof *calls);
        if (calls == NULL)
            return false;
        list->calls = calls;
        list->room = room;
    }
    list->calls[list->count++] = *call;
    return true;
}

/* What makes a line bad whatever its words are. */
static bool line_is_text(struct span line, bool has_newline, struct place place, struct bad_lines *bad)
{
    if (has_newline && line.length > 0 && line.start[line.length - 1] == '\r')
        bad_line(bad, place, "ends in CR LF; expected LF alone, as by tr -d '\\r'");
    else if (line.length > LINE_LENGTH_MAX)
        bad_line(bad, place, "%zu bytes long; expected at most %d", line.length, (int)LINE_LENGTH_MAX);
    else if (memchr(line.start, '\0', line.length) != NULL)
        bad_line(bad, place, "has a byte 0; expected text");
    else
        return true;
    return false;
}

static struct span without_comment(struct span line)
{
    const char *comment = memchr(line.start, '#', line.length);

    if (comment != NULL)
        line.length = (size_t)(comment - line.start);
    return line;
}

static enum call_kind kind_of(struct span word)
{
    size_t kind = 0;

    while (kind < CALL_KINDS && !word_is(word, call_forms[kind].word))
        kind++;
    return (enum call_kind)kind;
}

static bool read_numbers(struct span rest, struct call *call, struct bad_lines *bad)
{
    const struct call_form *form = &call_forms[call->kind];
    size_t count = words_count(rest);
    struct span word;
    char shown[WORD_TEXT_ROOM];

    if (count != form->count) {
        bad_line(bad, call->place, "numbers for %s%s: %zu; expected %zu", call_prefix(call), form->word, count, form->count);
        return false;
    }
    for (size_t i = 0; word_take(&rest, &word); i++) {
        const struct number_form *number = &form->numbers[i];
        if (!word_number(word, number, &call->numbers[i])) {
            bad_line(bad, call->place, "%s of %s%s is '%s'; expected a whole number from %lld to %lld, decimal%s", number->name,
                     call_prefix(call), form->word, word_shown(word, shown), (long long)number->least, (long long)number->greatest,
                     number->may_be_hexadecimal ? " or with 0x" : "");
            return false;
        }
    }
    return true;
}

/* After the word preview: a key, or a command with its own number. */
static bool read_preview(struct span rest, struct call *call, struct bad_lines *bad)
{
    struct span after = rest, word;
    char shown[WORD_TEXT_ROOM];

    call->previewed = true;
    if (word_take(&after, &word) && word_begins_number(word))
        return read_numbers(rest, call, bad);
    enum call_kind kind = kind_of(word);
    if (kind == CALL_KINDS || !call_forms[kind].is_command) {
        bad_line(bad, call->place, "preview of '%s'; expected a key, decimal or with 0x, nac, lmd, done, reset or partial",
                 word_shown(word, shown));
        return false;
    }
    call->kind = kind;
    return read_numbers(after, call, bad);
}

/* The bytes take the place of their digits, which need more room: no memory to ask for, and none to free. */
static bool read_bytes(struct span rest, struct call *call, struct bad_lines *bad)
{
    uint8_t *bytes = (uint8_t *)rest.start;
    struct span word;
    char shown[WORD_TEXT_ROOM];

    while (word_take(&rest, &word)) {
        if (!word_is_hexadecimal(word)) {
            bad_line(bad, call->place, "'%s' is not hexadecimal; expected two digits for each byte", word_shown(word, shown));
            return false;
        }
        if (word.length % 2 != 0) {
            bad_line(bad, call->place, "'%s' has an odd number of digits; expected two for each byte", word_shown(word, shown));
            return false;
        }
        word_bytes(word, bytes + call->length);
        call->length += word.length / 2;
    }
    call->bytes = bytes;
    if (call->length == 0)
        bad_line(bad, call->place, "%s without bytes; expected them in hexadecimal%s", call_forms[call->kind].word,
                 call->kind == CALL_OPEN ? ", or bench" : "");
    return call->length > 0;
}

/* A bad line of the two below is reported once: a repeat begins and ends whatever its number is. */
static bool read_repeat(struct list *list, struct span rest, struct call *call, struct bad_lines *bad)
{
    if (list->repeats++ >= REPEATS_DEEP_MAX) {
        bad_line(bad, call->place, "repeat inside %d others; expected at most one around it", (int)REPEATS_DEEP_MAX);
        return false;
    }
    list->repeat_lines[list->repeats - 1] = call->place.line;
    return read_numbers(rest, call, bad);
}

static bool read_end(struct list *list, struct span rest, struct call *call, struct bad_lines *bad)
{
    if (list->repeats == 0) {
        bad_line(bad, call->place, "end without repeat; expected repeat before it");
        return false;
    }
    list->repeats--;
    return read_numbers(rest, call, bad);
}

/* A repeat ends in the LIST in which it begins. */
static void end_list(struct list *list, struct place last, struct bad_lines *bad)
{
    size_t open = list->repeats < REPEATS_DEEP_MAX ? list->repeats : REPEATS_DEEP_MAX;

    if (open > 0)
        bad_line(bad, last, "the list ends in the repeat of line %zu; expected end before that", list->repeat_lines[open - 1]);
    list->repeats = 0;
}

static void open_bench(struct call *call)
{
    call->kind = CALL_OPEN;
    call->bytes = bench_pack;
    call->length = sizeof bench_pack;
}

/* A bad line of open or load is reported once, not again by every call after it. */
static bool read_gauge(struct list *list, struct span rest, struct call *call, struct bad_lines *bad)
{
    list->opened = true;
    if (call->kind == CALL_OPEN && words_are(rest, 1, bench_word)) {
        open_bench(call);
        return true;
    }
    return read_bytes(rest, call, bad);
}

/* What stands after the first word. */
static bool read_rest(struct list *list, struct span rest, struct call *call, struct bad_lines *bad)
{
    switch (call->kind) {
    case CALL_OPEN:
    case CALL_LOAD:
        return read_gauge(list, rest, call, bad);
    case CALL_PREVIEW:
        return read_preview(rest, call, bad);
    case CALL_REPEAT:
        return read_repeat(list, rest, call, bad);
    case CALL_END:
        return read_end(list, rest, call, bad);
    default:
        return read_numbers(rest, call, bad);
    }
}

/* True if the line is right and is a call, a repeat or an end. One that is none of them, or a bad one, which is reported, is false. */
static bool read_call(struct list *list, struct span line, struct call *call, struct bad_lines *bad)
{
    struct span rest = line, first;
    char shown[WORD_TEXT_ROOM];

    if (!word_take(&rest, &first))
        return false;
    if (word_begins_number(first)) {
        call->kind = CALL_WINDOW;
        return read_numbers(line, call, bad);
    }
    call->kind = kind_of(first);
    if (call->kind == CALL_KINDS) {
        bad_line(bad, call->place, "unknown word '%s'; expected open, load, window, rest, write, read, preview, estimate, nac, "
                 "lmd, done, reset, partial, repeat, end or three numbers", word_shown(first, shown));
        return false;
    }
    return read_rest(list, rest, call, bad);
}

/* The same for c v t as for open: it opens unless an earlier line does. */
static bool read_heading(struct list *list, struct call *call, struct bad_lines *bad)
{
    bool opened = list->opened;

    list->opened = true;
    if (call->place.line != 1) {
        bad_line(bad, call->place, "c v t after the first line; expected it only there");
        return false;
    }
    open_bench(call);
    return !opened;
}

static bool read_line(struct list *list, struct span line, struct call *call, struct bad_lines *bad)
{
    if (words_are(line, sizeof bench_heading / sizeof *bench_heading, bench_heading))
        return read_heading(list, call, bad);
    if (!read_call(list, line, call, bad))
        return false;
    if (list->opened || !call_is_one(call))
        return true;
    bad_line(bad, call->place, "%s%s before any open; expected open, load or c v t before it", call_prefix(call),
             call_forms[call->kind].word);
    return false;
}

bool list_add(struct list *list, const struct text *text, const char *name, struct bad_lines *bad)
{
    struct place place = {name, 0};
    struct span line;
    bool has_newline;
    size_t from = 0;

    while (text_line(text, &from, &line, &has_newline)) {
        place.line++;
        struct call call = {.place = place};
        if (line_is_text(line, has_newline, place, bad) && read_line(list, without_comment(line), &call, bad) &&
            !append(list, &call))
            return false;
    }
    end_list(list, place, bad);
    return true;
}

static uint64_t call_windows(const struct call *call)
{
    if (call->kind == CALL_WINDOW)
        return 1;
    return call->kind == CALL_REST && call->numbers[0] <= GAUGE_REST_MAX ? (uint64_t)call->numbers[0] : 0;
}

uint64_t list_windows(const struct list *list)
{
    uint64_t windows = 0, times[REPEATS_DEEP_MAX + 1] = {1};
    size_t deep = 0;

    for (size_t i = 0; i < list->count; i++) {
        const struct call *call = &list->calls[i];
        if (call->kind == CALL_REPEAT) {
            times[deep + 1] = times[deep] * (uint64_t)call->numbers[0];
            deep++;
        } else if (call->kind == CALL_END) {
            deep--;
        } else {
            windows += times[deep] * call_windows(call);
        }
    }
    return windows;
}
