#include "call.h"

#include "words.h"

#include <inttypes.h>
#include <stdio.h>

#define SIGNED(name) {name, INT32_MIN, INT32_MAX, false, false}
#define UNSIGNED(name, greatest) {name, 0, greatest, false, false}
#define EITHER(name, greatest, shown_hexadecimal) {name, 0, greatest, true, shown_hexadecimal}

const struct call_form call_forms[CALL_KINDS] = {
    [CALL_OPEN] = {.word = "open"},
    [CALL_LOAD] = {.word = "load"},
    [CALL_WINDOW] = {"window", 3, {SIGNED("C"), SIGNED("V"), SIGNED("T")}},
    [CALL_REST] = {"rest", 2, {UNSIGNED("N", UINT32_MAX), SIGNED("T")}},
    [CALL_WRITE] = {"write", 2, {EITHER("ADDRESS", UINT32_MAX, true), EITHER("BYTE", UINT8_MAX, true)}},
    [CALL_READ] = {"read", 2, {EITHER("ADDRESS", UINT32_MAX, true), EITHER("COUNT", UINT32_MAX, false)}},
    [CALL_PREVIEW] = {"preview", 1, {EITHER("KEY", UINT8_MAX, true)}},
    [CALL_ESTIMATE] = {"estimate", 1, {SIGNED("VOLTAGE")}},
    [CALL_NAC] = {"nac", 1, {UNSIGNED("N", UINT16_MAX)}, .is_command = true},
    [CALL_LMD] = {"lmd", 1, {UNSIGNED("N", UINT16_MAX)}, .is_command = true},
    [CALL_DONE] = {.word = "done", .is_command = true},
    [CALL_RESET] = {.word = "reset", .is_command = true},
    [CALL_PARTIAL] = {.word = "partial", .is_command = true},
    [CALL_REPEAT] = {"repeat", 1, {{"N", 1, ROUNDS_MAX, false, false}}},
    [CALL_END] = {.word = "end"},
};

bool call_is_one(const struct call *call)
{
    return call->kind != CALL_REPEAT && call->kind != CALL_END;
}

const char *call_prefix(const struct call *call)
{
    return call->previewed && call->kind != CALL_PREVIEW ? "preview " : "";
}

void call_print(const struct call *call)
{
    const struct call_form *form = &call_forms[call->kind];

    printf("%s%s", call_prefix(call), form->word);
    for (size_t i = 0; i < form->count; i++)
        if (form->numbers[i].shown_hexadecimal)
            printf(" 0x%02" PRIX64, (uint64_t)call->numbers[i]);
        else
            printf(" %" PRId64, call->numbers[i]);
    bytes_print(stdout, call->bytes, call->length);
    putchar('\n');
}
