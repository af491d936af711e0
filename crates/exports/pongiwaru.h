/* Pongiwaru for C: join, subtype, substitution, instantiation and constraints of Move's types.
 *
 * crates/exports/out/libexports.a has these functions (`tools/build.sh exports`), and so has lib/libpongiwaru.a of a release
 * (`tools/dist.sh`). src/lib.rt says, proved, what each gives for whatever it is lent; docs/STATE.md draws the state, docs/RECORDS.md has
 * records and answers. example.c beside this file is a caller in full, with its compile line.
 *
 * A fresh state is 24,069 words and 256 rows of parameter bytes, all zero:
 *
 *     static uint32_t state[PONGIWARU_WORDS];
 *     static uint8_t params[PONGIWARU_ROWS][PONGIWARU_ROW_BYTES];
 *
 * Words and rows belong together: lend those that the last call left. They may be kept, copied and lent again later.
 * Every pointer is to as many elements as the length beside it says, none is null (a length may be 0), and what a call may write
 * overlaps nothing else that it is lent. params has no length beside it: every call reads exactly PONGIWARU_ROWS rows, and all but
 * pongiwaru_split write as many. Calls on different states may run side by side. A call allocates nothing; it runs on the caller's
 * stack, and needs the more of it the deeper a state's types are nested. A call takes at most 768 KiB of it (tested on the deepest
 * sound states, not proved). What its callers keep on that stack comes on top: beside 256 KiB of theirs, a thread of
 * PONGIWARU_STACK_BYTES is enough.
 * Of the host's functions the archive wants memcpy and memset, and no other (tested).
 */
#ifndef PONGIWARU_H
#define PONGIWARU_H
#include <stdbool.h>
#include <stddef.h>
#include <stdint.h>

#ifdef __cplusplus
extern "C" {
#endif

/* PONGIWARU_VERSION changes with the records, their answers, these functions or what they ask of a caller (5: more stack; 6: the
 * record CN; 7: XP; 8: NL; 9: MJ, which wants longer buffers; 10: JL and UL; 11: KP, behind which variables have other numbers; 12:
 * pongiwaru_check_record), PONGIWARU_LAYOUT with what the words and rows of a state mean. Keep the layout's number beside a kept state.
 * A later version of the same layout goes on with it (to one before 8 a state in which a literal needs bits is 15); under another
 * layout it may be 15 or be taken for another sound state, so don't lend it: run its records again from a fresh state. */
#define PONGIWARU_VERSION 12
#define PONGIWARU_LAYOUT 1

/* Both numbers as the archive has them: the caller was built for it if they are PONGIWARU_VERSION and PONGIWARU_LAYOUT. Ask once,
 * before any other call. An archive of version 3 or before has neither function, and so does not link. */
uint32_t pongiwaru_version(void);
uint32_t pongiwaru_layout(void);

enum {
    PONGIWARU_WORDS = 24069,       /* of a state; with another length it is 15 */
    PONGIWARU_ROWS = 256,          /* of params, at every call */
    PONGIWARU_ROW_BYTES = 8,
    PONGIWARU_RECORD_BYTES = 4096, /* the most that a record has; a longer one is 5 */
    PONGIWARU_ANSWER_BYTES = 4096, /* the least answer buffer; a shorter one is 15 */
    PONGIWARU_LINE_BYTES = 8217,   /* the log's room for one more line; a job with less takes no record */
    PONGIWARU_MANY_ANSWER_BYTES = 61485, /* the same two where the record's first two bytes are MJ, whatever follows them */
    PONGIWARU_MANY_LINE_BYTES = 122995,
    PONGIWARU_STACK_BYTES = 1048576 /* of a thread: a call's 768 KiB, and 256 for what its callers keep there */
};

/* The number of an answer. 0 to 4 may have a payload and change the state; 5 and above have none and leave all as it was.
 * 0 is not yet a success: SV answers 0 also where constraints failed, and its payload then lists them; XP also where a type could not
 * be inferred, and its payload then ends with codes; MJ whatever its pairs are answered, and its payload has their numbers. So ask
 * PONGIWARU_WELL, and not for 0. */
enum pongiwaru_number {
    PONGIWARU_RAN = 0, /* the record was run to its end; PONGIWARU_TYPED up to version 3 */
    PONGIWARU_SUBTYPE_ERROR = 1,
    PONGIWARU_INCOMPATIBLE = 2,
    PONGIWARU_ARITY_MISMATCH = 3,
    PONGIWARU_RECURSIVE_TYPE = 4,
    PONGIWARU_MALFORMED = 5,
    PONGIWARU_UNKNOWN_NAME = 6,
    PONGIWARU_FULL = 7,
    PONGIWARU_TOO_DEEP = 8,
    PONGIWARU_RUNS_INTO_ITSELF = 9,
    PONGIWARU_ABILITIES_DISAGREE = 10,
    PONGIWARU_OPEN_VARIABLE = 11,
    PONGIWARU_NO_ARGUMENT = 12,
    PONGIWARU_PARAMETER_TWICE = 13,
    PONGIWARU_ANSWER_TOO_LONG = 14,
    PONGIWARU_UNSOUND_STATE = 15, /* words and params that are no sound state's, or an answer buffer that is too short */
    PONGIWARU_ABILITY_MARK_CONTRADICTED = 16, /* SV: a mark lacks what declaration and arguments grant */
    PONGIWARU_ALREADY_EXPANDED = 17, /* XP: a list or struct with an ability mark */
    PONGIWARU_DOUBLED_REFERENCE = 18 /* a reference directly under a reference */
};

/* Whether a record's answer says that nothing is wrong: 0, of SV without a payload, of XP without codes, of MJ with pairs of 0 alone.
 * record is what was lent, number what pongiwaru_record gave, payload and length what it wrote. (Up to version 6 without payload.) */
#define PONGIWARU_WELL(record, number, payload, length) \
    ((number) == PONGIWARU_RAN && \
     ((length) == 0 || !(((record)[0] == 'S' && (record)[1] == 'V') || \
                         ((record)[0] == 'X' && (record)[1] == 'P' && pongiwaru_has_code(payload, length)) || \
                         ((record)[0] == 'M' && (record)[1] == 'J' && pongiwaru_has_failed_pair(payload, length)))))

/* One record, lent whole: bytes left over are 5. The result is the answer's number; a 0 is not yet a success: PONGIWARU_WELL. The
 * payload stands in front of answer, and *length is how long it is; the rest of answer is as it was. */
uint32_t pongiwaru_record(uint32_t *state, size_t state_length, uint8_t params[PONGIWARU_ROWS][PONGIWARU_ROW_BYTES],
                          const uint8_t *record, size_t record_length,
                          uint8_t *answer, size_t answer_length, uint32_t *length);

/* The same call by another engine: slower, with join, subtype, unfolding and RD after the Rust's, to check pongiwaru_record by. JN, SU,
 * UF and RD alone; a record with another mark is 5, after 15, and changes nothing. An answer buffer of less than PONGIWARU_ANSWER_BYTES
 * is 15, whatever the mark. Lent the same words, rows, bytes and room as pongiwaru_record, of these four marks it gives the same number,
 * payload, words and rows (proved). */
uint32_t pongiwaru_check_record(uint32_t *state, size_t state_length, uint8_t params[PONGIWARU_ROWS][PONGIWARU_ROW_BYTES],
                                const uint8_t *record, size_t record_length,
                                uint8_t *answer, size_t answer_length, uint32_t *length);

/* How many bytes of the stream are left after the record at its head: the last *rest. All of them on 5, 6, 15 and 18. State and params
 * are as they were; params is not const, since C before C23 refuses an array of rows that is not const where const rows are wanted. */
void pongiwaru_split(uint32_t *state, size_t state_length, uint8_t params[PONGIWARU_ROWS][PONGIWARU_ROW_BYTES],
                     const uint8_t *stream, size_t stream_length, size_t *rest);

/* A job's next lines, those of as many records as the bytes hold whole and the log has room for. The log says what is wrong only beside
 * its job: an SV's line with a payload is failed constraints. more: further bytes follow these,
 * so a record is taken only where 4,096 bytes are at hand. *index is the next record's number, from 0. The result is 0, or 15 for a
 * state that is not sound. *read and *written say how much of stream and log was used. *ended: nothing follows, after a 5, a 6, a 15,
 * an 18 or the last record.
 * A call that has not ended is made again, on the bytes that were not read. Where it read nothing it waits: with more, for the bytes
 * that follow; for a log of PONGIWARU_LINE_BYTES, or of PONGIWARU_MANY_LINE_BYTES where the next two bytes are MJ; or for ever, where
 * *index is UINT64_MAX, since record numbers end one below it.
 * A caller that lends an *index of its own tests for that and stops; a count from 0 does not come so far. */
uint32_t pongiwaru_job(uint32_t *state, size_t state_length, uint8_t params[PONGIWARU_ROWS][PONGIWARU_ROW_BYTES],
                       const uint8_t *stream, size_t stream_length, bool more,
                       uint8_t *log, size_t log_length, size_t *written, size_t *read,
                       uint64_t *index, bool *ended);

/* A job's first lines, from a fresh state and record number 0: state and params may hold anything, and are cleared by the call, so the
 * state is not tested. Else as pongiwaru_job, which goes on from what this leaves; *index is only written. The result is 0, or 15 where
 * state_length is not PONGIWARU_WORDS. */
uint32_t pongiwaru_fresh_job(uint32_t *state, size_t state_length, uint8_t params[PONGIWARU_ROWS][PONGIWARU_ROW_BYTES],
                             const uint8_t *stream, size_t stream_length, bool more,
                             uint8_t *log, size_t log_length, size_t *written, size_t *read,
                             uint64_t *index, bool *ended);

/* Whether a payload of XP has a code: byte 5 and a location behind the type. Tag by tag: in XP's type each struct's tag and location are
 * followed by an ability mark, 16 or more, and a code's by the next code or nothing. */
static inline bool pongiwaru_has_code(const uint8_t *payload, uint32_t length) {
    static const uint8_t fields[9] = {0, 1, 5, 2, 2, 3, 2, 0, 0};
    for (uint32_t at = 0; at < length;) {
        uint8_t tag = payload[at];
        at += 5;
        if (tag == 5 && (at >= length || payload[at] < 16)) return true;
        at += tag < 9 ? fields[tag] : 0;
    }
    return false;
}

/* Whether a payload of MJ has a pair that is not 0. A pair is its number, its payload's length in two bytes, and that payload. */
static inline bool pongiwaru_has_failed_pair(const uint8_t *payload, uint32_t length) {
    for (uint32_t at = 0; at + 3 <= length;) {
        if (payload[at] != 0) return true;
        at += 3 + payload[at + 1] + 256u * payload[at + 2];
    }
    return false;
}

#ifdef __cplusplus
}
#endif
#endif
