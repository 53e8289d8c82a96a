/* replay: runs lists of calls on a gauge and prints the registers after each call. */
#include "calls.h"
#include "list.h"
#include "rounds.h"
#include "saved.h"
#include "table.h"
#include "text.h"

#include <errno.h>
#include <stdio.h>
#include <stdlib.h>
#include <string.h>

enum status { STATUS_DONE = 0, STATUS_FAILED = 1, STATUS_BAD_INPUT = 2 };

static const char usage[] = "usage: replay [--all] [--save FILE] [LIST ..]\n";

struct options {
    bool all;
    const char *save;
    const char **files; /* the LISTs in order, "-" for standard input */
    size_t count;
};

static bool asks_for_help(int count, char **arguments)
{
    return count == 2 && strcmp(arguments[1], "--help") == 0;
}

/* False on bad usage. files has room for every argument, and for one. */
static bool read_options(int count, char **arguments, struct options *options)
{
    for (int i = 1; i < count; i++) {
        const char *argument = arguments[i];
        if (strcmp(argument, "--all") == 0)
            options->all = true;
        else if (strcmp(argument, "--save") == 0 && options->save == NULL && i + 1 < count)
            options->save = arguments[++i];
        else if (argument[0] != '-' || strcmp(argument, "-") == 0)
            options->files[options->count++] = argument;
        else
            return false;
    }
    if (options->count == 0)
        options->files[options->count++] = "-";
    return true;
}

static const char *name_of(const char *file_name)
{
    return strcmp(file_name, "-") == 0 ? "standard input" : file_name;
}

static enum status no_memory(void)
{
    fprintf(stderr, "replay: no memory left\n");
    return STATUS_FAILED;
}

static enum status read_texts(const struct options *options, struct text *texts)
{
    for (size_t i = 0; i < options->count; i++)
        if (!text_read(options->files[i], &texts[i])) {
            fprintf(stderr, "replay: %s: cannot be read: %s\n", name_of(options->files[i]), strerror(errno));
            return STATUS_FAILED;
        }
    return STATUS_DONE;
}

static enum status read_lists(const struct options *options, const struct text *texts, struct list *list)
{
    struct bad_lines bad = {0};

    for (size_t i = 0; i < options->count; i++)
        if (!list_add(list, &texts[i], name_of(options->files[i]), &bad))
            return no_memory();
    if (bad.count > 0) {
        bad_lines_end(&bad);
        return STATUS_BAD_INPUT;
    }
    return STATUS_DONE;
}

static enum status make_calls(const struct options *options, const struct list *list)
{
    enum status status = STATUS_DONE;
    struct run run = {0};
    struct table table;

    table_begin(&table, options->all, list_windows(list));
    rounds_make(list, &run, &table);
    table_end(&table);
    if (fflush(stdout) != 0 || ferror(stdout)) {
        fprintf(stderr, "replay: standard output: cannot be written: %s\n", strerror(errno));
        status = STATUS_FAILED;
    }
    if (options->save != NULL && !saved_write(&run, options->save))
        status = STATUS_FAILED;
    return status;
}

/* Everything is read and understood before the first call is made. */
static enum status replay(const struct options *options, struct text *texts)
{
    struct list list = {0};
    enum status status = read_texts(options, texts);

    if (status == STATUS_DONE)
        status = read_lists(options, texts, &list);
    if (status == STATUS_DONE)
        status = make_calls(options, &list);
    free(list.calls);
    return status;
}

int main(int count, char **arguments)
{
    size_t room = (size_t)count + 1;
    struct options options = {.files = calloc(room, sizeof *options.files)};
    struct text *texts = calloc(room, sizeof *texts);
    enum status status;

    if (options.files == NULL || texts == NULL) {
        status = no_memory();
    } else if (asks_for_help(count, arguments)) {
        fputs(usage, stdout);
        status = STATUS_DONE;
    } else if (!read_options(count, arguments, &options)) {
        fputs(usage, stderr);
        status = STATUS_BAD_INPUT;
    } else {
        status = replay(&options, texts);
    }

    for (size_t i = 0; texts != NULL && i < room; i++)
        free(texts[i].bytes);
    free(texts);
    free(options.files);
    return (int)status;
}
