/* Replays a journal from standard input: its lines, then the same from the numbers, the finalizing precommits, and the weight of the
 * voters who precommitted twice, which is what the journal beside itself gives. `example < JOURNAL`. Of an input that is not read to
 * its end it tells nothing. Status: 0 told, 3 input not read, 4 output not written. */
#include <errno.h>
#include <inttypes.h>
#include <stdio.h>
#include <stdlib.h>
#include <unistd.h>

#include "beamtassel.h"

/* A report is 22 numbers without gaps. */
typedef char report_size[sizeof(struct beamtassel_report) == BEAMTASSEL_REPORT_BYTES ? 1 : -1];

/* All of standard input; NULL where a read fails, and errno then has the reason. A read that a signal interrupted is made again. */
static uint8_t *read_all(size_t *length)
{
    size_t room = 4096;
    uint8_t *bytes = malloc(room);
    *length = 0;
    while (bytes != NULL) {
        ssize_t got = read(STDIN_FILENO, bytes + *length, room - *length);
        if (got == 0)
            return bytes;
        if (got < 0 && errno != EINTR) {
            int reason = errno;
            free(bytes);
            errno = reason;
            return NULL;
        }
        if (got > 0)
            *length += (size_t)got;
        if (*length == room) {
            uint8_t *more = realloc(bytes, 2 * room);
            if (more == NULL)
                free(bytes);
            bytes = more;
            room *= 2;
        }
    }
    return NULL;
}

static void print_block(const char *name, const struct beamtassel_block *block)
{
    if (block->known)
        printf("%s %" PRIu64 " %" PRIu64 "\n", name, block->id, block->number);
    else
        printf("%s none\n", name);
}

static void print_report(const struct beamtassel_report *report)
{
    switch (report->outcome) {
    case BEAMTASSEL_JOURNAL_REFUSED:
        printf("refused %" PRIu64 " at %" PRIu64 "\n", report->refusal, report->refused_record);
        return;
    case BEAMTASSEL_NO_ROUND:
        printf("no round\ntail %" PRIu64 "\n", report->tail);
        return;
    }
    printf("round %" PRIu64 "\n", report->round);
    printf("prevote %" PRIu64 " of %" PRIu64 " need %" PRIu64 " voters %" PRIu64 "\n", report->prevote_weight, report->total,
           report->threshold, report->prevoters);
    printf("precommit %" PRIu64 " of %" PRIu64 " need %" PRIu64 " voters %" PRIu64 "\n", report->precommit_weight, report->total,
           report->threshold, report->precommitters);
    print_block("ghost", &report->ghost);
    print_block("estimate", &report->estimate);
    print_block("final", &report->final);
    printf("completable %s\ntail %" PRIu64 "\n", report->completable ? "yes" : "no", report->tail);
}

int main(void)
{
    if (beamtassel_version() != BEAMTASSEL_VERSION_NUMBER) {
        fprintf(stderr, "example: the archive does not belong to the header %s\n", BEAMTASSEL_VERSION);
        return 1;
    }

    size_t length;
    uint8_t *journal = read_all(&length);
    if (journal == NULL) {
        perror("example: standard input");
        return 3;
    }

    uint8_t lines[BEAMTASSEL_LINES_BYTES];
    uint64_t size = beamtassel_print(journal, length, lines, sizeof lines);
    if (size < BEAMTASSEL_REFUSED)
        fwrite(lines, 1, (size_t)size, stdout);

    struct beamtassel_report report;
    if (beamtassel_replay(journal, length, (uint8_t *)&report, sizeof report) == sizeof report)
        print_report(&report);

    uint8_t precommits[BEAMTASSEL_FINALIZING_BYTES];
    size = beamtassel_finalizing(journal, length, precommits, sizeof precommits);
    if (size < BEAMTASSEL_REFUSED)
        printf("finalizing precommits %" PRIu64 "\n", size / 22);
    else
        printf("finalizing refused %" PRIu64 "\n", size - BEAMTASSEL_REFUSED);

    uint8_t weight[BEAMTASSEL_WEIGHT_BYTES];
    size = beamtassel_two_views(journal, length, journal, length, weight, sizeof weight);
    if (size < BEAMTASSEL_REFUSED) {
        uint64_t twice = 0;
        for (int k = BEAMTASSEL_WEIGHT_BYTES - 1; k >= 0; k--)
            twice = twice << 8 | weight[k];
        printf("precommitted twice %" PRIu64 "\n", twice);
    } else
        printf("two views refused %" PRIu64 "\n", size - BEAMTASSEL_REFUSED);

    /* A buffer that is a byte short is refused and left as it was. */
    uint8_t few[BEAMTASSEL_REPORT_BYTES - 1] = {0};
    size = beamtassel_replay(journal, length, few, sizeof few);
    printf("a byte short %" PRIu64 "\n", size - BEAMTASSEL_REFUSED);

    free(journal);
    if (fclose(stdout) != 0) {
        perror("example: standard output");
        return 4;
    }
    return 0;
}
