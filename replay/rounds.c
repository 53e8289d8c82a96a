#include "rounds.h"

struct rounds {
    const struct list *list;
    struct run *run;
    struct table *table;
};

/* What was made: up to where in the list, and the number of the first call that was refused, or 0. */
struct made {
    size_t end;
    uint32_t number;
};

static struct made make_call(struct rounds *rounds, size_t at, bool shown)
{
    const struct call *call = &rounds->list->calls[at];
    struct reply reply;
    uint32_t number = call_make(call, rounds->run, &reply);

    if (shown)
        table_row(rounds->table, call, number, rounds->run, &reply);
    else
        table_count(rounds->table, call, number);
    return (struct made){at + 1, number};
}

static struct made make_repeat(struct rounds *rounds, size_t at, bool shown);

/* To the end of the list or of the repeat around it. Repeats are at most REPEATS_DEEP_MAX in each other, and so are these calls. */
static struct made make_part(struct rounds *rounds, size_t at, bool shown)
{
    const struct list *list = rounds->list;
    struct made made = {at, GAUGE_OK};

    while (made.end < list->count && list->calls[made.end].kind != CALL_END) {
        bool repeats = list->calls[made.end].kind == CALL_REPEAT;
        struct made next = repeats ? make_repeat(rounds, made.end, shown) : make_call(rounds, made.end, shown);
        made.end = next.end;
        if (made.number == GAUGE_OK)
            made.number = next.number;
    }
    return made;
}

/* Whether the repeat has one call alone, whose row says all of a round. */
static bool is_of_one_call(const struct list *list, size_t repeat)
{
    return call_is_one(&list->calls[repeat + 1]) && list->calls[repeat + 2].kind == CALL_END;
}

static struct made make_repeat(struct rounds *rounds, size_t at, bool shown)
{
    uint32_t count = (uint32_t)rounds->list->calls[at].numbers[0], number = GAUGE_OK;
    bool by_rounds = shown && !is_of_one_call(rounds->list, at);
    size_t end = at;

    if (by_rounds)
        table_repeat(count);
    for (uint32_t round = 1; round <= count; round++) {
        struct made made = make_part(rounds, at + 1, shown && (!by_rounds || round == 1 || round == count));
        if (by_rounds)
            table_round(rounds->table, round, count, made.number, rounds->run);
        if (number == GAUGE_OK)
            number = made.number;
        end = made.end;
    }
    return (struct made){end + 1, number};
}

void rounds_make(const struct list *list, struct run *run, struct table *table)
{
    struct rounds rounds = {list, run, table};

    make_part(&rounds, 0, true);
}
