/* A job from standard input, record by record: its log on standard output, and on standard error each record whose answer is not well.
 * Compiled and run in this folder, once `tools/build.sh exports` has made the archive:
 *
 *     cc -std=c99 -O2 -I. example.c out/libexports.a -o example && ./example < ../joinlog/stdin
 *
 * and in the folder of a release (tools/dist.sh):
 *
 *     cc -std=c99 -O2 -Iinclude share/example.c -Llib -lpongiwaru -o example && ./example < share/worked.job
 *
 * Exit status: 0 nothing is wrong; 1 something is; 2 not known: no whole job was read, its log not written, or the archive is another.
 */
#include <inttypes.h>
#include <pongiwaru.h>
#include <stdio.h>

static uint8_t job[1 << 24];
static uint32_t state[PONGIWARU_WORDS]; /* all zero: a fresh state */
static uint8_t params[PONGIWARU_ROWS][PONGIWARU_ROW_BYTES];
static uint8_t answer[PONGIWARU_MANY_ANSWER_BYTES]; /* MJ's; enough for all others */

static void print_line(uint64_t index, uint32_t number, uint32_t length) {
    printf("%" PRIu64 " %" PRIu32, index, number);
    for (uint32_t i = 0; i < length; i++) printf(i == 0 ? " %02x" : "%02x", answer[i]);
    putchar('\n');
}

/* SV, XP and MJ answer 0 whatever is wrong, and the payload says what: a row for each constraint that failed, a code for each variable
 * that is not inferred, each pair's number */
static const char *told_by(const uint8_t *record) {
    return record[0] == 'S' ? "failed constraints" : record[0] == 'X' ? "types not inferred" : "failed pairs";
}

static void print_wrong(uint64_t index, const uint8_t *record, uint32_t number, uint32_t length) {
    if (number == PONGIWARU_RAN)
        fprintf(stderr, "record %" PRIu64 ": %s, in %" PRIu32 " bytes\n", index, told_by(record), length);
    else
        fprintf(stderr, "record %" PRIu64 ": answer %" PRIu32 "\n", index, number);
}

/* the records of a stream one after the other; how many answers are not well */
static uint64_t run(const uint8_t *stream, size_t size) {
    uint64_t wrong = 0;
    for (uint64_t index = 0; size > 0; index++) {
        size_t rest;
        uint32_t length;
        pongiwaru_split(state, PONGIWARU_WORDS, params, stream, size, &rest);
        size_t taken = rest == size ? size : size - rest; /* all is handed back where there is no whole record: lent all the same */
        uint32_t number = pongiwaru_record(state, PONGIWARU_WORDS, params, stream, taken, answer, sizeof answer, &length);
        print_line(index, number, length);
        if (!PONGIWARU_WELL(stream, number, answer, length)) {
            print_wrong(index, stream, number, length);
            wrong++;
        }
        stream += taken;
        size -= taken;
    }
    return wrong;
}

static int unknown(const char *why) {
    fprintf(stderr, "%s\n", why);
    return 2;
}

int main(void) {
    if (pongiwaru_version() != PONGIWARU_VERSION || pongiwaru_layout() != PONGIWARU_LAYOUT)
        return unknown("the archive is not the one of this header");
    size_t size = fread(job, 1, sizeof job, stdin);
    if (ferror(stdin)) return unknown("standard input cannot be read");
    if (size == sizeof job) return unknown("the job is too long for this program");
    uint64_t wrong = run(job, size);
    if (fflush(stdout) != 0 || ferror(stdout)) return unknown("the log cannot be written");
    return wrong > 0;
}
