/* host BENCHFILE: the C host over the calls of a bench file. Of each kind of call it tries every area with wrong lengths, the
   order of the answers, and a cut at every store, all on guarded areas. Prints 'N passed, M failed'. */

#define _DEFAULT_SOURCE

#include "calls.h"

enum { FILLED = 0x5A, AREA = PURSE_RESPONSE + 8, MOST_VIEW = 4096, MOST_KINDS = 64, MOST_AID = 16, CHALLENGE = 8 };

/* What a card says of itself, and where it says how many PIN tries are left; no bytes where memory reads as no card. */
struct view {
    size_t len, tries_at;
    uint8_t bytes[MOST_VIEW];
};

/* A kind of call: its first two bytes and how many stores it makes. */
struct kind {
    unsigned kind, code;
    size_t count;
};

static unsigned long passed, failed, given[9];
static struct kind kinds[MOST_KINDS];
static size_t kind_count;
/* The AID of the card, and of the one that is to be installed: the length, then the bytes. */
static uint8_t aids[2][1 + MOST_AID];

static unsigned code(const struct call *call)
{
    return call->kind == COMMAND && call->areas[INPUT].len >= 2 ? (unsigned)word(call->areas[INPUT].bytes) : 0;
}

static void expect(bool right, const char *what, const struct call *call)
{
    if (right) {
        passed++;
        return;
    }
    failed++;
    printf("FAILED: %s (call %c %04X, limit %zu)\n", what, "ISC"[call->kind - INSTALLATION], code(call), call->limit);
}

static uint64_t run(struct call *call)
{
    bool kept;
    uint64_t result = make(call, &kept);

    if (!kept || purse_answer(result) > PURSE_NO_SESSION)
        expect(false, "guards and what is only read stay, and an answer is given", call);
    else
        given[purse_answer(result)]++;
    return result;
}

/* ---- refusals */

/* The call answers this, with no response and no store, and every area is as it was. */
static void refused(struct call call, unsigned answer, const char *what)
{
    const struct call before = call;

    expect(run(&call) == answer && same(&call.areas[MEMORY], &before.areas[MEMORY]) &&
               same(&call.areas[SESSION], &before.areas[SESSION]) &&
               same(&call.areas[RESPONSE], &before.areas[RESPONSE]),
           what, &before);
}

static void refused_at(const struct call *call, int area, size_t len, unsigned answer, const char *what)
{
    struct call wrong = *call;

    wrong.areas[area].len = len;
    refused(wrong, answer, what);
}

/* An area of no bytes, of one fewer and of one more than is right. */
static void wrong_lengths(const struct call *call, int area, size_t right, unsigned answer, const char *what)
{
    refused_at(call, area, 0, answer, what);
    refused_at(call, area, right - 1, answer, what);
    refused_at(call, area, right + 1, answer, what);
}

static void lengths(const struct call *call)
{
    wrong_lengths(call, MEMORY, PURSE_MEMORY, PURSE_WRONG_MEMORY, "memory of a wrong length");
    wrong_lengths(call, SESSION, PURSE_SESSION, PURSE_NO_SESSION, "a session area of a wrong length");
    if (call->kind == INSTALLATION)
        wrong_lengths(call, INPUT, call->areas[INPUT].len, PURSE_WRONG_DATA, "installation data of a wrong length");
    if (call->kind != COMMAND)
        return;
    wrong_lengths(call, RANDOM, PURSE_RANDOM, PURSE_WRONG_RANDOM, "random bytes of a wrong number");
    refused_at(call, RESPONSE, 0, PURSE_SHORT_AREA, "no response area");
    refused_at(call, RESPONSE, PURSE_RESPONSE - 1, PURSE_SHORT_AREA, "a response area that is too short");
}

/* One reason more each time: the first in 01's order counts. */
static void order(struct call call)
{
    if (call.kind == INSTALLATION) {
        call.areas[INPUT].bytes[0] = MOST_AID + 1;
        refused(call, PURSE_WRONG_DATA, "an AID that is too long");
    } else {
        memset(call.areas[MEMORY].bytes, 0, PURSE_MEMORY);
        refused(call, PURSE_NO_CARD, "memory that reads as no card");
    }
    if (call.kind == COMMAND) {
        memset(call.areas[SESSION].bytes, 0, PURSE_SESSION);
        refused(call, PURSE_NO_SESSION, "zeros for a session");
        memset(call.areas[SESSION].bytes, FILLED, PURSE_SESSION);
        refused(call, PURSE_NO_SESSION, "no session, before no card");
        refused_at(&call, RANDOM, 0, PURSE_WRONG_RANDOM, "random bytes before the session");
        call.areas[RANDOM].len = 0;
        refused_at(&call, RESPONSE, 0, PURSE_SHORT_AREA, "the response area before random bytes");
        call.areas[RESPONSE].len = 0;
    } else {
        refused_at(&call, SESSION, 0, PURSE_NO_SESSION, "the session area before data and card");
    }
    call.areas[SESSION].len = 0;
    refused_at(&call, MEMORY, 0, PURSE_WRONG_MEMORY, "memory before all else");
}

/* ---- what a card says of itself */

static size_t send(struct call *call, const uint8_t *command, size_t len, struct view *view)
{
    size_t length;

    call->kind = COMMAND;
    call->areas[INPUT].len = len;
    memcpy(call->areas[INPUT].bytes, command, len);
    length = purse_length(run(call));
    memcpy(view->bytes + view->len, call->areas[RESPONSE].bytes, length);
    view->len += length;
    return length;
}

static bool is_done(const struct view *view)
{
    return view->len >= 2 && word(view->bytes + view->len - 2) == 0x9000;
}

static void look_inside(struct call *call, struct view *view)
{
    static const uint8_t tags[] = { 0x01, 0x02, 0x03, 0x04, 0x05, 0x06, 0x07, 0x14, 0x15, 0x16, 0x17 };

    for (size_t i = 0; i < sizeof tags; i++) {
        size_t length = send(call, (uint8_t[]){ 0x80, 0xCA, 0x02, tags[i] }, 4, view);
        if (tags[i] == 0x16)
            view->tries_at = view->len - length + 1;
    }
    for (uint8_t n = 1; is_done(view); n++)
        send(call, (uint8_t[]){ 0x00, 0xB2, n, 0x04 }, 4, view);
    for (uint8_t set = 1; set <= 3; set++)
        send(call, (uint8_t[5 + CHALLENGE]){ 0x80, 0x50, set, 0x00, CHALLENGE }, 5 + CHALLENGE, view);
}

/* After a start-up: what it says to its AID, all its data, its log, and the card cryptogram of each key set. */
static void look(const struct call *from, struct view *view)
{
    struct call call = *from;

    call.kind = START_UP;
    call.limit = PURSE_NO_LIMIT;
    *view = (struct view){ 0 };
    if (purse_answer(run(&call)) != PURSE_DONE)
        return;
    for (int i = 0; i < 2; i++) {
        uint8_t select[5 + MOST_AID] = { 0x00, 0xA4, 0x04, 0x00 };

        memcpy(select + 4, aids[i], sizeof aids[i]);
        send(&call, select, aids[i][0] == 0 ? 4 : 5u + aids[i][0], view);
        if (is_done(view)) {
            look_inside(&call, view);
            return;
        }
    }
}

static bool same_view(const struct view *a, const struct view *b)
{
    return a->len == b->len && memcmp(a->bytes, b->bytes, a->len) == 0;
}

/* As before, as after, for a cut installation as no card, and for VERIFY PIN as before with one try fewer. */
static bool is_allowed(const struct view *view, const struct view *before, const struct view *after, const struct call *call)
{
    struct view tried = *before;

    if (call->kind == INSTALLATION)
        return view->len == 0 || same_view(view, before);
    tried.bytes[tried.tries_at]--;
    return same_view(view, before) || same_view(view, after) || (code(call) == 0x9420 && same_view(view, &tried));
}

/* ---- cuts */

static size_t differences(const struct area *a, const struct area *b)
{
    size_t n = 0;

    for (size_t i = 0; i < a->len; i++)
        n += a->bytes[i] != b->bytes[i];
    return n;
}

/* A cut at every store. */
static void cuts(const struct call *call, size_t count, const struct call *done)
{
    struct view before, after, seen;
    struct area last = call->areas[MEMORY];

    look(call, &before);
    look(done, &after);
    for (size_t limit = 0; limit < count; limit++) {
        struct call cut = *call;
        uint64_t result;

        cut.limit = limit;
        result = run(&cut);
        expect(purse_answer(result) == PURSE_CUT && purse_length(result) == 0 && purse_count(result) == limit,
               "a cut call answers 7 and reports its limit", &cut);
        expect(differences(&last, &cut.areas[MEMORY]) <= (limit > 0), "one store more changes one byte at most", &cut);
        expect(same(&call->areas[RESPONSE], &cut.areas[RESPONSE]), "7 leaves the response area", &cut);
        expect(is_filled(cut.areas[SESSION].bytes, PURSE_SESSION, 0), "7 leaves zeros for a session", &cut);
        last = cut.areas[MEMORY];
        look(&cut, &seen);
        expect(is_allowed(&seen, &before, &after, call), "a cut card reads as before or as after", &cut);
        if (call->kind == COMMAND)
            refused(cut, PURSE_NO_SESSION, "zeros are no session");
    }
    expect(differences(&last, &done->areas[MEMORY]) <= 1, "the last store changes one byte at most", call);
}

/* ---- calls that finish */

static bool same_areas(const struct call *a, const struct call *b)
{
    for (int i = 0; i < AREAS; i++)
        if (!same(&a->areas[i], &b->areas[i]))
            return false;
    return true;
}

/* Any limit from the count on gives the same, and installation and start-up don't look into the session area. */
static void finished(const struct call *call, uint64_t result, const struct call *done)
{
    const size_t limits[] = { purse_count(result), 65535 }, length = purse_length(result);
    struct call other;

    expect(length <= PURSE_RESPONSE && (length >= 2) == (call->kind == COMMAND), "a command has a response", call);
    expect(is_filled(done->areas[RESPONSE].bytes + length, AREA - length, FILLED), "what follows a response stays", call);
    for (size_t i = 0; i < 2; i++) {
        other = *call;
        other.limit = limits[i];
        expect(run(&other) == result && same_areas(&other, done), "the count is enough", &other);
    }
    if (call->kind == COMMAND)
        return;
    other = *call;
    memset(other.areas[SESSION].bytes, FILLED, PURSE_SESSION);
    expect(run(&other) == result && same_areas(&other, done), "what the session area held doesn't matter", &other);
}

static bool is_new(const struct call *call, size_t count)
{
    const struct kind kind = { call->kind, code(call), count };

    for (size_t i = 0; i < kind_count; i++)
        if (kinds[i].kind == kind.kind && kinds[i].code == kind.code && kinds[i].count == kind.count)
            return false;
    if (kind_count == MOST_KINDS) {
        fprintf(stderr, "over %d kinds of calls\n", MOST_KINDS);
        exit(2);
    }
    kinds[kind_count++] = kind;
    return true;
}

/* Did a call finish, without a refusal by status word unless it stores? */
static bool is_good(const struct call *done, uint64_t result)
{
    size_t length = purse_length(result);

    return purse_answer(result) == PURSE_DONE &&
           (purse_count(result) > 0 || length == 0 || word(done->areas[RESPONSE].bytes + length - 2) == 0x9000);
}

/* Makes a call, and tries all that is tried of its kind where that is new. */
static void follow(struct call *call)
{
    struct call done = *call;
    uint64_t result = run(&done);

    if (is_good(&done, result) && is_new(call, purse_count(result))) {
        finished(call, result, &done);
        lengths(call);
        order(*call);
        cuts(call, purse_count(result), &done);
    }
    if (call->kind == INSTALLATION && purse_answer(result) == PURSE_DONE)
        memcpy(aids[0], aids[1], sizeof aids[0]);
    *call = done;
}

/* Every answer but 5, which is never due, was given, and each command that stores was cut: two of them with either count. */
static void covered(const struct call *call)
{
    static const unsigned storing[] = { 0x84D8, 0x8424, 0x8424, 0x84E2, 0x84DA, 0x9420, 0x9420, 0x9446 };

    for (unsigned answer = 0; answer <= PURSE_NO_SESSION; answer++)
        expect((given[answer] > 0) == (answer != PURSE_AWAITS_START), "each answer is given, 5 apart", call);
    for (size_t i = 0; i < sizeof storing / sizeof *storing; i++) {
        size_t found = 0, wanted = 0;

        for (size_t k = 0; k < kind_count; k++)
            found += kinds[k].code == storing[i] && kinds[k].count > 0;
        for (size_t k = 0; k < sizeof storing / sizeof *storing; k++)
            wanted += storing[k] == storing[i];
        expect(found == wanted, "each command that stores is cut", call);
    }
}

static void give(struct call *call, const struct record *record)
{
    call->kind = record->kind;
    call->limit = PURSE_NO_LIMIT;
    call->areas[INPUT].len = record->input_len;
    memcpy(call->areas[INPUT].bytes, record->input, record->input_len);
    call->areas[RANDOM].len = PURSE_RANDOM;
    if (record->kind == COMMAND)
        memcpy(call->areas[RANDOM].bytes, record->random, PURSE_RANDOM);
    call->areas[RESPONSE].len = AREA;
    memset(call->areas[RESPONSE].bytes, FILLED, sizeof call->areas[RESPONSE].bytes);
    if (record->kind == INSTALLATION && record->input_len > MOST_AID && record->input[0] <= MOST_AID)
        memcpy(aids[1], record->input, sizeof aids[1]);
}

int main(int argc, char **argv)
{
    static struct call call;
    struct reader reader;
    struct record record;

    if (argc != 2) {
        fprintf(stderr, "usage: host BENCHFILE\n");
        return 2;
    }
    reader = open_bench(argv[1]);
    make_rooms();
    call.areas[MEMORY].len = PURSE_MEMORY;
    call.areas[SESSION].len = PURSE_SESSION;
    while (read_record(&reader, &record)) {
        give(&call, &record);
        follow(&call);
    }
    covered(&call);
    printf("%lu passed, %lu failed\n", passed, failed);
    return failed > 0;
}
