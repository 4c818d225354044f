/*
 * Beamtassel: the counting of one GRANDPA round, replayed from a journal's bytes.
 *
 * Link with libbeamtassel.a, which `tools/proved beamtassel_c` writes to target/staticlib, on x86-64 Linux. It needs memcpy and memset
 * alone. Every function is proved to do what crates/beamtassel/specs/Calls.antt says, for any bytes whatever.
 *
 * What every call does
 *
 * - A journal and a buffer are a pointer and then a length in bytes. The bytes of the buffer must not overlap a journal's, and nothing else
 *   may change or read them during the call. Pass a pointer that is not null, also with length 0.
 * - The result is the number of bytes written from the start of `out`, and what stands in `out` after them is left as it was. Or it is
 *   BEAMTASSEL_REFUSED and the number of a refusal, and then nothing in `out` has changed.
 * - Nothing else is asked of the caller: any bytes may come as a journal, and a buffer of any length is tested.
 * - No call allocates, blocks, reads or writes a file, or keeps anything for the next call, so calls may run in several threads at once.
 *   A call needs at most BEAMTASSEL_STACK_BYTES of stack, whatever the journal's length.
 *
 * The numbers of refusals are those of docs/RULES.md, "Refusal numbers", which are document 01's. That page has the journal's format too.
 */
#ifndef BEAMTASSEL_H
#define BEAMTASSEL_H

#include <stddef.h>
#include <stdint.h>

#ifdef __cplusplus
extern "C" {
#endif

/* The version of this header; beamtassel_version() is the archive's. Both are one number: 1000000 * major + 1000 * minor + patch. */
#define BEAMTASSEL_VERSION "0.2.0"
#define BEAMTASSEL_VERSION_NUMBER 2000

/* Results from here on are refusals: the number is the result minus this. */
#define BEAMTASSEL_REFUSED UINT64_C(4294967296)

/* The refusals that come from the calls themselves; a journal's own are 1 to 8, 10 to 13, 17 and 18. */
#define BEAMTASSEL_SHORT 14 /* the buffer is too short for all that is to be written */
#define BEAMTASSEL_NOT_FINAL 15 /* there is no round, or nothing in it is final */
#define BEAMTASSEL_NOT_ONE_ROUND 16 /* two journals differ in round, voters, base or block table, or one has no round */

/* What a call needs of its thread's stack, at most; `bindings/stack` adds up what each of them does. */
#define BEAMTASSEL_STACK_BYTES 262144

/* Sizes of buffers that are never too short. */
#define BEAMTASSEL_REPORT_BYTES 176
#define BEAMTASSEL_LINES_BYTES 512
#define BEAMTASSEL_FINALIZING_BYTES 2816
#define BEAMTASSEL_WEIGHT_BYTES 8

/* How a journal ended: `outcome` of a report. */
#define BEAMTASSEL_ROUND 0 /* with a round */
#define BEAMTASSEL_NO_ROUND 1 /* before its round was opened */
#define BEAMTASSEL_JOURNAL_REFUSED 2 /* at a record that was refused */

/* A block; all three are 0 where there is none. */
struct beamtassel_block {
    uint64_t known; /* 1 if there is a block */
    uint64_t id;
    uint64_t number;
};

/*
 * What beamtassel_replay writes: 22 numbers of eight bytes, little-endian. x86-64 is little-endian and the struct has no gaps, so that the
 * address of one can be passed as `out`, with its size as the length. Where there is no round, all from `round` on is 0.
 */
struct beamtassel_report {
    uint64_t outcome; /* BEAMTASSEL_ROUND, BEAMTASSEL_NO_ROUND or BEAMTASSEL_JOURNAL_REFUSED */
    uint64_t refusal; /* the number of the refusal, or 0 */
    uint64_t refused_record; /* the record that was refused, counted from 1, or 0 */
    uint64_t records; /* how many records were taken */
    uint64_t tail; /* bytes of a record that was cut off at the journal's end; 0 in a refused journal */
    uint64_t round; /* the round's number */
    uint64_t total; /* weight of all voters */
    uint64_t threshold; /* the weight that decides */
    uint64_t prevote_weight; /* weight heard in prevotes */
    uint64_t precommit_weight; /* weight heard in precommits */
    uint64_t prevoters; /* voters heard in prevotes */
    uint64_t precommitters; /* voters heard in precommits */
    struct beamtassel_block ghost; /* the block that the prevotes stand behind */
    struct beamtassel_block estimate; /* the last block that can still become final in this round */
    struct beamtassel_block final; /* the block that is final */
    uint64_t completable; /* 1 if the next round may begin */
};

/*
 * Replays a journal and writes what it tells as numbers: 176 bytes, a struct beamtassel_report.
 * A journal that is refused is no refusal of this call: the report tells it.
 * Refuses: 14.
 */
uint64_t beamtassel_replay(const uint8_t *journal, size_t journal_length, uint8_t *out, size_t out_length);

/*
 * Replays a journal and writes what it tells as text: document 01's lines, each with a newline at its end, and no byte 0 after them.
 * Refuses: 14.
 */
uint64_t beamtassel_print(const uint8_t *journal, size_t journal_length, uint8_t *out, size_t out_length);

/*
 * Replays a journal and writes the precommits that make its block final: by rising voter, those at or below the final block, and both of
 * every voter who precommitted twice. Each is a Pc record of 22 bytes, as in a journal.
 * Refuses, in this order: the journal's own refusal; 15; 14.
 */
uint64_t beamtassel_finalizing(const uint8_t *journal, size_t journal_length, uint8_t *out, size_t out_length);

/*
 * Replays two journals of one round and writes the weight of the voters, each once, who precommitted twice in either of them, another
 * signature for the same block included, or who precommitted in both for blocks that differ in id: 8 bytes, little-endian. A voter silent in
 * both adds nothing, and neither does one heard once in one of them and not in the other. A journal beside itself gives the weight of the
 * voters who precommitted twice in it.
 * Where each journal has a final block and neither block is the other or its ancestor, the weight is above the fault weight, (total - 1) / 3
 * rounded down: it tells how much weight contradicted itself, and not who; a weight above the fault weight alone does not mean two final blocks.
 * Refuses, in this order: the first journal's own refusal; the second's; 16; 14.
 *
 * Block tables are compared line by line, in the order in which the blocks were learned. So 16 is also the answer for two desks that learned
 * the same blocks in another order, though nothing is amiss. Give both journals one order first: in each, put the Bk records into the
 * order of rising number and then of rising id, all of them before the Op (README.md, "Two desks that learned blocks in another order").
 */
uint64_t beamtassel_two_views(const uint8_t *first, size_t first_length, const uint8_t *second, size_t second_length, uint8_t *out,
                              size_t out_length);

/* The version of the archive that is linked, as one number: BEAMTASSEL_VERSION_NUMBER if it belongs to this header. */
uint64_t beamtassel_version(void);

#ifdef __cplusplus
}
#endif

#endif
