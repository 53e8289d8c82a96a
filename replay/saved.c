#include "saved.h"

#include "words.h"

#include <errno.h>
#include <stdio.h>
#include <string.h>

static bool is_gauge(const struct run *run)
{
    uint8_t control;

    return gauge_read(run->saved, sizeof run->saved, GAUGE_REG_CTRL, 1, &control, 1, 0) == GAUGE_OK;
}

bool saved_write(const struct run *run, const char *file_name)
{
    if (!is_gauge(run)) {
        fprintf(stderr, "replay: %s: not written, there is no gauge to save\n", file_name);
        return false;
    }

    FILE *stream = fopen(file_name, "w");
    bool written = stream != NULL;
    if (written) {
        fputs(call_forms[CALL_LOAD].word, stream);
        bytes_print(stream, run->saved, sizeof run->saved);
        fputc('\n', stream);
        written = !ferror(stream);
        /* What stands in the stream's buffer may fail to reach the file only now. */
        written = fclose(stream) == 0 && written;
    }
    if (!written)
        fprintf(stderr, "replay: %s: cannot be written: %s\n", file_name, strerror(errno));
    return written;
}
