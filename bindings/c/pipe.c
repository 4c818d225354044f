/* Answers many journals over one pipe, for `oracle/compare --pipe`: a journal comes with its length before it (four bytes, little-endian), and
 * its lines go out likewise. The lines of beamtassel_print must also be those that the numbers of beamtassel_replay give; where they are not,
 * the answer says so, which no judge does. */
#include <inttypes.h>
#include <stdio.h>
#include <stdlib.h>
#include <string.h>

#include "beamtassel.h"

struct text {
    char bytes[1024];
    size_t size;
};

static void put_block(struct text *text, const char *name, const struct beamtassel_block *block)
{
    char *end = text->bytes + text->size;
    size_t room = sizeof text->bytes - text->size;
    if (block->known)
        text->size += (size_t)snprintf(end, room, "%s %" PRIu64 " %" PRIu64 "\n", name, block->id, block->number);
    else
        text->size += (size_t)snprintf(end, room, "%s none\n", name);
}

static void put_report(struct text *text, const struct beamtassel_report *report)
{
    text->size = 0;
    if (report->outcome == BEAMTASSEL_JOURNAL_REFUSED) {
        text->size =
            (size_t)snprintf(text->bytes, sizeof text->bytes, "refused %" PRIu64 " at %" PRIu64 "\n", report->refusal, report->refused_record);
        return;
    }
    if (report->outcome == BEAMTASSEL_NO_ROUND) {
        text->size = (size_t)snprintf(text->bytes, sizeof text->bytes, "no round\ntail %" PRIu64 "\n", report->tail);
        return;
    }
    text->size = (size_t)snprintf(text->bytes, sizeof text->bytes,
                                  "round %" PRIu64 "\nprevote %" PRIu64 " of %" PRIu64 " need %" PRIu64 " voters %" PRIu64
                                  "\nprecommit %" PRIu64 " of %" PRIu64 " need %" PRIu64 " voters %" PRIu64 "\n",
                                  report->round, report->prevote_weight, report->total, report->threshold, report->prevoters,
                                  report->precommit_weight, report->total, report->threshold, report->precommitters);
    put_block(text, "ghost", &report->ghost);
    put_block(text, "estimate", &report->estimate);
    put_block(text, "final", &report->final);
    text->size += (size_t)snprintf(text->bytes + text->size, sizeof text->bytes - text->size, "completable %s\ntail %" PRIu64 "\n",
                                   report->completable ? "yes" : "no", report->tail);
}

static void answer(const uint8_t *bytes, size_t size)
{
    uint8_t length[4] = {(uint8_t)size, (uint8_t)(size >> 8), (uint8_t)(size >> 16), (uint8_t)(size >> 24)};
    fwrite(length, 1, 4, stdout);
    fwrite(bytes, 1, size, stdout);
}

int main(void)
{
    uint8_t head[4];
    uint8_t *journal = malloc(1);
    while (journal != NULL && fread(head, 1, 4, stdin) == 4) {
        size_t length = (size_t)head[0] | (size_t)head[1] << 8 | (size_t)head[2] << 16 | (size_t)head[3] << 24;
        uint8_t *more = realloc(journal, length + 1);
        if (more == NULL || fread(more, 1, length, stdin) != length) {
            fputs("pipe: a journal was not read whole\n", stderr);
            return 1;
        }
        journal = more;

        uint8_t lines[BEAMTASSEL_LINES_BYTES];
        struct beamtassel_report report;
        struct text text;
        uint64_t size = beamtassel_print(journal, length, lines, sizeof lines);
        if (beamtassel_replay(journal, length, (uint8_t *)&report, sizeof report) != sizeof report)
            return 1;
        put_report(&text, &report);
        if (size == text.size && memcmp(lines, text.bytes, text.size) == 0)
            answer(lines, (size_t)size);
        else
            answer((const uint8_t *)"lines and numbers differ\n", 25);
    }
    free(journal);
    if (ferror(stdin)) {
        perror("pipe: standard input");
        return 3;
    }
    if (fclose(stdout) != 0) {
        perror("pipe: standard output");
        return 4;
    }
    return 0;
}
