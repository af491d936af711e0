/* The exports called from C. Expected answers are 01's. Its last line is 'N passed, M failed'. */
#include "../pongiwaru.h"
#include <inttypes.h>
#include <stdio.h>
#include <string.h>

static int passed, failed;

static void expect(const char *what, bool holds) {
    if (holds) {
        passed++;
    } else {
        failed++;
        printf("FAILED  %s\n", what);
    }
}

static uint32_t state[PONGIWARU_WORDS], before[PONGIWARU_WORDS];
static uint8_t params[PONGIWARU_ROWS][PONGIWARU_ROW_BYTES];
static uint8_t answer[PONGIWARU_MANY_ANSWER_BYTES], log_bytes[PONGIWARU_MANY_LINE_BYTES + 65536];

static void fresh(void) {
    memset(state, 0, sizeof state);
    memset(params, 0, sizeof params);
    memset(answer, 170, sizeof answer);
    memset(log_bytes, 170, sizeof log_bytes);
}

static bool untouched(const uint8_t *bytes, size_t from, size_t to) {
    for (size_t i = from; i < to; i++)
        if (bytes[i] != 170) return false;
    return true;
}

static uint32_t record(const uint8_t *bytes, size_t size, size_t room, uint32_t *length) {
    return pongiwaru_record(state, PONGIWARU_WORDS, params, bytes, size, answer, room, length);
}

static uint32_t check(const uint8_t *bytes, size_t size, size_t room, uint32_t *length) {
    return pongiwaru_check_record(state, PONGIWARU_WORDS, params, bytes, size, answer, room, length);
}

static uint32_t job(const uint8_t *stream, size_t size, bool more, size_t room, size_t *written, size_t *read, uint64_t *index, bool *ended) {
    return pongiwaru_job(state, PONGIWARU_WORDS, params, stream, size, more, log_bytes, room, written, read, index, ended);
}

static const uint8_t fv[] = {'F', 'V', 1, 0, 0, 0};
static const uint8_t sd[] = {'S', 'D', 3, 1, 17};
static const uint8_t variable[] = {6, 1, 0, 0, 0, 0, 0};

/* the worked example of 01 */
static const uint8_t worked[] = {
    0x4e, 0x56, 0x01, 0x00, 0x00, 0x00, 0x4a, 0x4e, 0x06, 0x02, 0x00, 0x00, 0x00, 0x00, 0x00, 0x03,
    0x03, 0x00, 0x00, 0x00, 0x00, 0x02, 0x55, 0x46, 0x06, 0x04, 0x00, 0x00, 0x00, 0x00, 0x00};
static const char worked_log[] = "0 0 06010000000000\n1 0 06020000000000\n2 0 03030000000002\n";

static void numbers_of_the_archive(void) {
    expect("the archive's version is the header's", pongiwaru_version() == PONGIWARU_VERSION);
    expect("the archive's layout is the header's", pongiwaru_layout() == PONGIWARU_LAYOUT);
}

static void records(void) {
    uint32_t length = 9;
    fresh();
    expect("FV is 0", record(fv, sizeof fv, sizeof answer, &length) == PONGIWARU_RAN);
    expect("FV's payload", length == 7 && memcmp(answer, variable, 7) == 0 && untouched(answer, 7, sizeof answer));
    expect("a variable is taken", state[2] == 1);
    expect("SD is 0", record(sd, sizeof sd, sizeof answer, &length) == PONGIWARU_RAN);
    expect("SD's number and bytes", length == 2 && answer[0] == 0 && answer[1] == 0 && params[0][0] == 17 && state[4] == 1);
    memcpy(before, state, sizeof state);
    expect("bytes left over are 5", record(worked, 7, sizeof answer, &length) == PONGIWARU_MALFORMED);
    expect("5 changes nothing", length == 0 && memcmp(before, state, sizeof state) == 0);
}

/* SV's failure of code 4: the record's bytes that declaration, IN and SV have, and the payload */
static void abilities(void) {
    static const uint8_t sd[] = {'S', 'D', 0, 1, 1};
    static const uint8_t in[] = {'I', 'N', 5, 2, 0, 0, 0, 0, 0, 0, 3, 3, 0, 0, 0, 0, 1};
    static const uint8_t row[] = {4, 2, 0, 0, 0, 1, 3, 3, 0, 0, 0, 0, 1, 1};
    static const uint8_t sv[] = {'S', 'V'};
    uint32_t length = 9;
    fresh();
    record(sd, sizeof sd, sizeof answer, &length);
    expect("IN leaves two constraints", record(in, sizeof in, sizeof answer, &length) == PONGIWARU_RAN && state[3] == 2);
    expect("SV shows a missing ability", record(sv, sizeof sv, sizeof answer, &length) == PONGIWARU_RAN && length == sizeof row && memcmp(answer, row, sizeof row) == 0);
    expect("and it is no success", !PONGIWARU_WELL(sv, PONGIWARU_RAN, answer, length) && PONGIWARU_WELL(in, PONGIWARU_RAN, answer, 5) && PONGIWARU_WELL(sd, PONGIWARU_RAN, answer, 2));
    expect("SV leaves none", state[3] == 0 && record(sv, sizeof sv, sizeof answer, &length) == PONGIWARU_RAN && length == 0 && PONGIWARU_WELL(sv, PONGIWARU_RAN, answer, length));
    expect("an error and a refusal are none", !PONGIWARU_WELL(in, PONGIWARU_INCOMPATIBLE, answer, 14) && !PONGIWARU_WELL(sv, PONGIWARU_FULL, answer, 0));
}

/* XP: V0 is bound to nothing; then a struct, whose tag is 5 as a code is */
static void expanded(void) {
    static const uint8_t open[] = {'X', 'P', 3, 2, 0, 0, 0, 0, 5, 6, 9, 0, 0, 0, 0, 0};
    static const uint8_t shown[] = {3, 2, 0, 0, 0, 23, 5, 8, 9, 0, 0, 0, 5, 9, 0, 0, 0};
    static const uint8_t none[] = {'X', 'P', 5, 2, 0, 0, 0, 0, 0, 0, 3, 5, 5, 5, 5, 0, 2};
    uint32_t length = 9;
    fresh();
    record(fv, sizeof fv, sizeof answer, &length);
    record(sd, sizeof sd, sizeof answer, &length);
    expect("XP shows a type and its code", record(open, sizeof open, sizeof answer, &length) == PONGIWARU_RAN && length == sizeof shown && memcmp(answer, shown, sizeof shown) == 0);
    expect("which is no success", !PONGIWARU_WELL(open, PONGIWARU_RAN, answer, length));
    expect("a struct is no code", record(none, sizeof none, sizeof answer, &length) == PONGIWARU_RAN && length == 15 && PONGIWARU_WELL(none, PONGIWARU_RAN, answer, length));
}

/* MJ: the worked record, V0 taken; in its place a pair of 10 */
static void pairs(void) {
    static const uint8_t many[] = {
        'M', 'J', 3, 0, 6, 2, 0, 0, 0, 0, 0, 3, 3, 0, 0, 0, 0, 2,
        1, 1, 5, 0, 0, 0, 0, 3, 6, 0, 0, 0, 0, 2, 1, 7, 0, 0, 0, 1, 3, 8, 0, 0, 0, 0, 2,
        0, 6, 9, 0, 0, 0, 0, 0, 3, 10, 0, 0, 0, 0, 2};
    static const uint8_t shown[] = {
        0, 7, 0, 6, 2, 0, 0, 0, 0, 0,
        1, 26, 0, 1, 5, 0, 0, 0, 0, 3, 6, 0, 0, 0, 0, 2, 1, 7, 0, 0, 0, 1, 3, 8, 0, 0, 0, 0, 2,
        0, 7, 0, 6, 10, 0, 0, 0, 2, 0};
    static const uint8_t refused[] = {'M', 'J', 1, 0, 3, 5, 0, 0, 0, 23, 2, 3, 6, 0, 0, 0, 0, 2};
    static const uint8_t none[] = {10, 0, 0}, well[] = {0, 0, 0, 0, 7, 0, 6, 2, 0, 0, 0, 0, 0};
    static const char line[] = "0 0 0a0000\n";
    uint32_t length = 9;
    size_t written = 9, read = 9;
    uint64_t index = 0;
    bool ended = false;
    fresh();
    record(fv, sizeof fv, sizeof answer, &length);
    expect("a buffer one byte short is 15", record(many, sizeof many, PONGIWARU_MANY_ANSWER_BYTES - 1, &length) == PONGIWARU_UNSOUND_STATE && length == 0 && state[0] == 0);
    expect("so is one for its two letters alone", record(many, 2, PONGIWARU_MANY_ANSWER_BYTES - 1, &length) == PONGIWARU_UNSOUND_STATE);
    expect("one letter wants no more than others", record(many, 1, PONGIWARU_ANSWER_BYTES, &length) == PONGIWARU_MALFORMED);
    expect("MJ is 0", record(many, sizeof many, PONGIWARU_MANY_ANSWER_BYTES, &length) == PONGIWARU_RAN);
    expect("its pairs", length == sizeof shown && memcmp(answer, shown, sizeof shown) == 0 && untouched(answer, sizeof shown, sizeof answer));
    expect("11 nodes, 3 variables", state[0] == 11 && state[2] == 3);
    expect("a failed pair is no success", !PONGIWARU_WELL(many, PONGIWARU_RAN, answer, length) && !PONGIWARU_WELL(refused, PONGIWARU_RAN, none, sizeof none) && PONGIWARU_WELL(many, PONGIWARU_RAN, well, sizeof well));
    fresh();
    job(refused, sizeof refused, false, PONGIWARU_MANY_LINE_BYTES - 1, &written, &read, &index, &ended);
    expect("a log one byte short waits for room", written == 0 && read == 0 && index == 0 && !ended);
    job(refused, sizeof refused, false, PONGIWARU_MANY_LINE_BYTES, &written, &read, &index, &ended);
    expect("room for its line takes it", written == sizeof line - 1 && memcmp(log_bytes, line, written) == 0 && read == sizeof refused && index == 1 && ended);
    expect("a refused pair keeps what was read", state[0] == 2);
}

/* KP: of two variables the second stays and has the first one's number; the declaration stays */
static void kept(void) {
    static const uint8_t kp[] = {'K', 'P', 1, 1, 0}, shown[] = {1, 0, 0, 0};
    static const uint8_t gone[] = {'U', 'F', 6, 9, 0, 0, 0, 1, 0};
    uint32_t length = 9;
    fresh();
    record(sd, sizeof sd, sizeof answer, &length);
    record(fv, sizeof fv, sizeof answer, &length);
    record(fv, sizeof fv, sizeof answer, &length);
    memset(answer, 170, sizeof answer);
    expect("KP is 0", record(kp, sizeof kp, sizeof answer, &length) == PONGIWARU_RAN && PONGIWARU_WELL(kp, PONGIWARU_RAN, answer, length));
    expect("the old number and the new one", length == sizeof shown && memcmp(answer, shown, sizeof shown) == 0 && untouched(answer, sizeof shown, sizeof answer));
    expect("one variable and the struct stay", state[2] == 1 && state[4] == 1 && params[0][0] == 17);
    expect("nobody has the old number", record(gone, sizeof gone, sizeof answer, &length) == PONGIWARU_UNKNOWN_NAME);
}

/* a record by both engines, from the same words and rows: the state goes on with what they left */
static bool same(const uint8_t *bytes, size_t size, uint32_t number) {
    static uint32_t left[PONGIWARU_WORDS];
    static uint8_t rows[sizeof params], told[sizeof answer];
    uint32_t length = 9, slowly = 9;
    memcpy(before, state, sizeof state);
    memset(answer, 170, sizeof answer);
    bool given = record(bytes, size, sizeof answer, &length) == number;
    memcpy(left, state, sizeof state);
    memcpy(rows, params, sizeof params);
    memcpy(told, answer, sizeof answer);
    memcpy(state, before, sizeof state);
    memset(answer, 170, sizeof answer);
    given = given && check(bytes, size, sizeof answer, &slowly) == number && slowly == length;
    return given && memcmp(left, state, sizeof state) == 0 && memcmp(rows, params, sizeof params) == 0 && memcmp(told, answer, sizeof answer) == 0;
}

/* the slow engine: of its four marks what pongiwaru_record gives, of others 5 */
static void checked(void) {
    static const uint8_t jn[] = {'J', 'N', 6, 2, 0, 0, 0, 0, 0, 3, 3, 0, 0, 0, 0, 2}, su[] = {'S', 'U', 6, 2, 0, 0, 0, 1, 0, 6, 3, 0, 0, 0, 0, 0};
    static const uint8_t uf[] = {'U', 'F', 6, 4, 0, 0, 0, 1, 0}, rd[] = {'R', 'D', 4, 5, 0, 0, 0, 0, 2, 6, 6, 0, 0, 0, 0, 0, 6, 7, 0, 0, 0, 1, 0};
    static const uint8_t wrong[] = {'J', 'N', 6, 2, 0, 0, 0, 0, 0, 0, 3, 0, 0, 0}, gone[] = {'U', 'F', 6, 4, 0, 0, 0, 9, 0}, mj[] = {'M', 'J'};
    uint32_t length = 9;
    fresh();
    record(sd, sizeof sd, sizeof answer, &length);
    record(fv, sizeof fv, sizeof answer, &length);
    record(fv, sizeof fv, sizeof answer, &length);
    expect("JN by both", same(jn, sizeof jn, PONGIWARU_RAN) && state[0] == 2);
    expect("SU by both", same(su, sizeof su, PONGIWARU_RAN) && state[2] == 3);
    expect("UF by both", same(uf, sizeof uf, PONGIWARU_RAN));
    expect("RD by both", same(rd, sizeof rd, PONGIWARU_RAN));
    expect("an error by both", same(wrong, sizeof wrong, PONGIWARU_INCOMPATIBLE));
    expect("a refusal by both", same(gone, sizeof gone, PONGIWARU_UNKNOWN_NAME));
    expect("bytes left over by both", same(jn, sizeof jn - 1, PONGIWARU_MALFORMED));
    memcpy(before, state, sizeof state);
    memset(answer, 170, sizeof answer);
    expect("another mark is 5", check(fv, sizeof fv, sizeof answer, &length) == PONGIWARU_MALFORMED && length == 0 && untouched(answer, 0, sizeof answer));
    expect("MJ wants no more room", check(mj, sizeof mj, PONGIWARU_ANSWER_BYTES, &length) == PONGIWARU_MALFORMED);
    expect("a short buffer is 15 before that", check(fv, sizeof fv, PONGIWARU_ANSWER_BYTES - 1, &length) == PONGIWARU_UNSOUND_STATE && check(uf, sizeof uf, PONGIWARU_ANSWER_BYTES - 1, &length) == PONGIWARU_UNSOUND_STATE);
    expect("neither changes anything", memcmp(before, state, sizeof state) == 0);
    state[0] = 2049;
    expect("a state that is not sound is 15", check(fv, sizeof fv, sizeof answer, &length) == PONGIWARU_UNSOUND_STATE && check(uf, sizeof uf, sizeof answer, &length) == PONGIWARU_UNSOUND_STATE);
}

static void refused(void) {
    uint32_t length = 9;
    fresh();
    expect("a short answer buffer is 15", record(fv, sizeof fv, PONGIWARU_ANSWER_BYTES - 1, &length) == PONGIWARU_UNSOUND_STATE);
    expect("a short state is 15", pongiwaru_record(state, PONGIWARU_WORDS - 1, params, fv, sizeof fv, answer, sizeof answer, &length) == 15);
    params[PONGIWARU_ROWS - 1][PONGIWARU_ROW_BYTES - 1] = 1;
    expect("the last row is looked at", record(fv, sizeof fv, sizeof answer, &length) == PONGIWARU_UNSOUND_STATE);
    fresh();
    state[0] = 2049;
    memcpy(before, state, sizeof state);
    expect("a state that is not sound is 15", record(fv, sizeof fv, sizeof answer, &length) == PONGIWARU_UNSOUND_STATE);
    expect("15 writes nothing", length == 0 && untouched(answer, 0, sizeof answer) && memcmp(before, state, sizeof state) == 0);
}

static void splits(void) {
    uint8_t two[12];
    size_t rest = 99;
    memcpy(two, fv, 6);
    memcpy(two + 6, fv, 6);
    fresh();
    pongiwaru_split(state, PONGIWARU_WORDS, params, two, sizeof two, &rest);
    expect("one record is split off", rest == 6 && state[2] == 0);
    pongiwaru_split(state, PONGIWARU_WORDS, params, two, 5, &rest);
    expect("5 hands back all", rest == 5);
    pongiwaru_split(state, 0, params, two, sizeof two, &rest);
    expect("15 hands back all", rest == sizeof two);
}

static void jobs(void) {
    size_t written = 9, read = 9;
    uint64_t index = 0;
    bool ended = false;
    fresh();
    expect("a job is 0", job(worked, sizeof worked, false, sizeof log_bytes, &written, &read, &index, &ended) == 0);
    expect("its log", written == sizeof worked_log - 1 && memcmp(log_bytes, worked_log, written) == 0 && untouched(log_bytes, written, sizeof log_bytes));
    expect("its end", read == sizeof worked && index == 3 && ended);
    fresh();
    index = 0;
    job(worked, sizeof worked, true, sizeof log_bytes, &written, &read, &index, &ended);
    expect("too few bytes wait for more", written == 0 && read == 0 && index == 0 && !ended);
    job(worked, sizeof worked, false, PONGIWARU_LINE_BYTES - 1, &written, &read, &index, &ended);
    expect("a short log waits for room", written == 0 && read == 0 && index == 0 && !ended);
    job(worked, sizeof worked, false, PONGIWARU_LINE_BYTES, &written, &read, &index, &ended);
    expect("room for one line takes one record", written == 19 && read == 6 && index == 1 && !ended);
    index = UINT64_MAX;
    job(worked + 6, sizeof worked - 6, false, sizeof log_bytes, &written, &read, &index, &ended);
    expect("no record has the number 2^64 - 1", written == 0 && read == 0 && index == UINT64_MAX && !ended);
    expect("a job on no state is 15", pongiwaru_job(state, 0, params, worked, sizeof worked, false, log_bytes, sizeof log_bytes, &written, &read, &index, &ended) == 15 && written == 0 && read == 0 && ended);
    memset(state, 0xa5, sizeof state);
    memset(params, 0xa5, sizeof params);
    index = 7;
    expect("a fresh job takes words that are no state", pongiwaru_fresh_job(state, PONGIWARU_WORDS, params, worked, sizeof worked, false, log_bytes, sizeof log_bytes, &written, &read, &index, &ended) == 0 && read == sizeof worked && ended && index == 3);
    expect("a fresh job of another length is 15", pongiwaru_fresh_job(state, 0, params, worked, sizeof worked, false, log_bytes, sizeof log_bytes, &written, &read, &index, &ended) == 15 && written == 0 && read == 0 && ended);
}

/* ---- each answer under its name: streams whose last record has it, by pongiwaru_split and pongiwaru_record, and by pongiwaru_job */

static uint8_t stream[16384];
static size_t size;

static void bytes(const char *text, size_t n) {
    memcpy(stream + size, text, n);
    size += n;
}

#define BYTES(text) bytes(text, sizeof text - 1)
#define LOC "\0\0\0\0"
#define UNIT "\0" LOC
#define U8 "\3" LOC "\0\2"
#define VAR(v) "\6" LOC v "\0"
#define VECTOR "\3" LOC "\0\5"
#define REF "\1" LOC "\0"

static void times(int n, const char *text, size_t length) {
    while (n-- > 0) bytes(text, length);
}

/* eight in each list, so many levels of lists */
static void lists(int levels) {
    if (levels == 0) {
        BYTES(UNIT);
        return;
    }
    BYTES("\4" LOC "\0\10");
    for (int i = 0; i < 8; i++) lists(levels - 1);
}

/* V0 to V3 and V4 to V7: each bound to 63 vectors around the next, the last to 63 around () */
static void deep(void) {
    times(8, "FV" LOC, 6);
    for (char v = 0; v < 8; v++) {
        char of[] = {6, 0, 0, 0, 0, v, 0}, next[] = {6, 0, 0, 0, 0, (char)(v + 1), 0};
        BYTES("JN");
        bytes(of, sizeof of);
        times(63, VECTOR, 7);
        if (v % 4 == 3) BYTES(UNIT); else bytes(next, sizeof next);
    }
    BYTES("JN" VAR("\0") VAR("\4"));
}

static void stream_of(enum pongiwaru_number number) {
    size = 0;
    switch (number) {
    case PONGIWARU_RAN: bytes((const char *)worked, sizeof worked); break;
    case PONGIWARU_SUBTYPE_ERROR: BYTES("SU" REF U8 "\1" LOC "\1" U8); break;
    case PONGIWARU_INCOMPATIBLE: BYTES("JN\2" LOC "\7\0\0\0\0\2" LOC "\10\0\0\0\0"); break;
    case PONGIWARU_ARITY_MISMATCH: BYTES("JN\4" LOC "\0\2" UNIT UNIT "\4" LOC "\0\3" UNIT UNIT UNIT); break;
    case PONGIWARU_RECURSIVE_TYPE: BYTES("FV" LOC "JN" VAR("\0") VECTOR VAR("\0")); break;
    case PONGIWARU_MALFORMED: BYTES("FV" LOC "XX"); break;
    case PONGIWARU_UNKNOWN_NAME: BYTES("FV" LOC "UF" VAR("\1")); break;
    case PONGIWARU_FULL: times(1025, "FV" LOC, 6); break;
    case PONGIWARU_TOO_DEEP: deep(); break;
    case PONGIWARU_RUNS_INTO_ITSELF:
        BYTES("FV" LOC "FV" LOC "JN" VAR("\0") VECTOR VAR("\1") "JN" VAR("\1") VECTOR VAR("\0") "RD" VAR("\0"));
        break;
    case PONGIWARU_ABILITIES_DISAGREE: BYTES("JN" U8 "\3" LOC "\22\2"); break;
    case PONGIWARU_OPEN_VARIABLE: BYTES("FV" LOC "IN" VAR("\0")); break;
    case PONGIWARU_NO_ARGUMENT: BYTES("TS\0\2" LOC "\7\0\0\0\0"); break;
    case PONGIWARU_PARAMETER_TWICE: BYTES("TS\2" "\7\0\0\0" U8 "\7\0\0\0" U8 UNIT); break;
    case PONGIWARU_ANSWER_TOO_LONG:
        BYTES("FV" LOC "JN" VAR("\0"));
        lists(3);
        BYTES("RD\4" LOC "\0\2" VAR("\0") VAR("\0"));
        break;
    case PONGIWARU_UNSOUND_STATE: break;
    case PONGIWARU_ABILITY_MARK_CONTRADICTED: BYTES("SD\0\1\1" "IN\5" LOC "\0\0\0" "\3" LOC "\22\2" "SV"); break;
    case PONGIWARU_ALREADY_EXPANDED: BYTES("XP\4" LOC "\20\1" U8); break;
    case PONGIWARU_DOUBLED_REFERENCE: BYTES("FV" LOC "UF" REF REF U8); break;
    }
}

/* one record after the other: their lines to text, and the last one's number; the state goes from words to words */
static uint32_t one_by_one(char *text, size_t *used) {
    uint32_t number = PONGIWARU_RAN, length;
    size_t at = 0, rest;
    *used = 0;
    for (uint64_t index = 0; at < size; index++) {
        pongiwaru_split(state, PONGIWARU_WORDS, params, stream + at, size - at, &rest);
        size_t end = rest == size - at ? size : size - rest;
        number = record(stream + at, end - at, sizeof answer, &length);
        *used += (size_t)sprintf(text + *used, "%" PRIu64 " %" PRIu32, index, number);
        for (uint32_t i = 0; i < length; i++) *used += (size_t)sprintf(text + *used, i == 0 ? " %02x" : "%02x", answer[i]);
        text[(*used)++] = '\n';
        at = end;
    }
    return number;
}

static void numbers(void) {
    static char text[sizeof log_bytes];
    char what[80];
    for (int number = PONGIWARU_RAN; number <= PONGIWARU_DOUBLED_REFERENCE; number++) {
        size_t used, written, read;
        uint64_t index = 0;
        bool ended;
        stream_of((enum pongiwaru_number)number);
        if (size == 0) continue; /* 15 is no record's */
        fresh();
        sprintf(what, "the last answer is %d", number);
        expect(what, one_by_one(text, &used) == (uint32_t)number);
        memcpy(before, state, sizeof state);
        fresh();
        job(stream, size, false, sizeof log_bytes, &written, &read, &index, &ended);
        sprintf(what, "a job to answer %d is its records one by one", number);
        expect(what, written == used && memcmp(log_bytes, text, used) == 0 && ended && memcmp(before, state, sizeof state) == 0);
    }
}

int main(void) {
    numbers_of_the_archive();
    records();
    abilities();
    expanded();
    pairs();
    kept();
    checked();
    refused();
    splits();
    jobs();
    numbers();
    printf("%d passed, %d failed\n", passed, failed);
    return failed != 0;
}
