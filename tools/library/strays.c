/* Replicas over an array of words into which somebody else writes once: a random word, at a random moment. Counts how the runs
 * end, and holds each word that a replica takes against the test of docs/ALONE.md, which is written here anew.
 *
 *     cc -std=c11 -Ic tools/library/strays.c out/libmu.a -o strays && ./strays RUNS SEED */
#include "chance.h"

uint64_t chance;

enum { MOST = 7, ROWS = 12, ROW_WORDS = 12, STEPS = 40000, TEXT = 16, JOB = 1024, ENTRIES = 64, KEYS = 3, BUDGET = 60000 };

/* Where the words of a host are. */
enum { FENCE = 0, MINIMUM = 1, FUO = 2, HEAD = 3, BEATS = 4, ASKS = 5 };

enum { PAYLOADS = 4096, FIRST_MARK = 4080, NOBODY = 7 };

enum end { GOES_ON, REFUSED, HALTED };

struct one {
    mu_replica replica;
    mu_operation operation;
    uint64_t found;
    enum { RESTS, ASKED, MADE } moment;
    enum end end;
};

struct command {
    char key, kind; /* put, get, swap or del */
    uint32_t value, client;
};

struct run {
    struct one each[MOST];
    struct command command[ROWS];
    uint32_t count, ring, rows, version, words;
    uint64_t *memory;
    uint64_t stored[ROWS * ROW_WORDS]; /* each word of a row, if somebody stored it, at whichever host */
    uint8_t is_stored[ROWS * ROW_WORDS];
    char job[JOB];
};

/* How many runs ended how, and how many words were taken that should be refused, or refused that shouldn't. */
struct told {
    uint32_t refused, still, right, wrong, taken_wrongly, refused_wrongly;
};

static void draw_job(struct run *run)
{
    run->count = 3 + 2 * below(3);
    run->ring = 16 + below(48);
    run->version = 1 + below(2);
    run->rows = 0;
    int used = snprintf(run->job, JOB, "mu %u\nreplicas %u\nring %u\nbudget %u\n", run->version, run->count, run->ring, BUDGET);
    if (run->version == 2)
        used += snprintf(run->job + used, JOB - (size_t)used, "batch 1\n");
    for (uint32_t client = 0; client < 3; client++) {
        used += snprintf(run->job + used, JOB - (size_t)used, "client %u\n", client);
        for (uint32_t k = 1 + below(4); k > 0; k--) {
            struct command *it = &run->command[run->rows++];
            *it = (struct command){ .key = (char)('a' + below(KEYS)), .kind = "pgsd"[below(4)], .value = below(1000),
                                    .client = client };
            static const char *const forms[] = { "put %c %u\n", "swap %c %u\n", "get %c\n", "del %c\n" };
            const char *form = forms[it->kind == 'p' ? 0 : it->kind == 's' ? 1 : it->kind == 'g' ? 2 : 3];
            used += snprintf(run->job + used, JOB - (size_t)used, form, it->key, it->value);
        }
    }
    snprintf(run->job + used, JOB - (size_t)used, "end\n");
}

static void begin(struct run *run)
{
    uint32_t hosts = 0;
    draw_job(run);
    for (uint32_t r = 0; r < run->count; r++) {
        struct one *one = &run->each[r];
        if (mu_replica_new(&one->replica, run->job, strlen(run->job), r, 1, 0) != MU_DONE) {
            puts("strays: there is no replica");
            exit(1);
        }
        one->moment = RESTS;
        one->end = GOES_ON;
    }
    mu_replica_shape(&run->each[0].replica, &hosts, &run->words);
    run->memory = calloc((size_t)hosts * run->words, sizeof *run->memory);
    memset(run->is_stored, 0, sizeof run->is_stored);
    for (uint32_t p = 0; p < hosts; p++)
        run->memory[(size_t)p * run->words] = MU_FIRST_FENCE;
}

static uint64_t bits(uint64_t word, uint32_t from, uint32_t count)
{
    return word >> from & ((UINT64_C(1) << count) - 1);
}

static int is_payload(const struct run *run, uint64_t payload)
{
    uint64_t row = payload % PAYLOADS;
    int is_mark = run->version == 2 && row >= FIRST_MARK && row < FIRST_MARK + run->count;
    return payload / PAYLOADS < run->count && (row < run->rows || is_mark);
}

static uint64_t positions(const struct run *run)
{
    return run->rows + (run->version == 2 ? run->count : 0) + 1;
}

static int is_fence(const struct run *run, uint64_t word)
{
    return bits(word, 32, 32) == 0 && (bits(word, 11, 3) == NOBODY || bits(word, 11, 3) < run->count) &&
           bits(word, 0, 11) < run->ring + 2;
}

static int is_slot(const struct run *run, uint32_t place, uint64_t word)
{
    uint64_t position = bits(word, 38, 9) * run->ring + place;
    return bits(word, 0, 47) == 0 ||
           (position < positions(run) && bits(word, 15, 23) % 8 < run->count && is_payload(run, bits(word, 0, 15)));
}

static uint32_t rows_at(const struct run *run)
{
    return ASKS + run->count + run->ring;
}

/* Whether the test of docs/ALONE.md refuses the word that this access found: YES or NO; or UNKNOWN, of a row that nobody wrote. */
enum answer { NO, YES, UNKNOWN };

static enum answer is_refused(const struct run *run, const mu_operation *o, uint64_t word)
{
    uint32_t slots = ASKS + run->count, rows = rows_at(run);
    if (o->kind == MU_STORE && o->place >= rows)
        return NO;
    if (o->place >= rows)
        return run->is_stored[o->place - rows] ? word != run->stored[o->place - rows] : UNKNOWN;
    if (o->place >= slots)
        return !is_slot(run, o->place - slots, word);
    switch (o->place) {
    case FENCE: return !is_fence(run, word);
    case MINIMUM: return bits(word, 23, 24) != 0 || bits(word, 0, 23) % 8 >= run->count;
    case FUO: case HEAD: return word > positions(run);
    default: return word > BUDGET;
    }
}

static void note_stored(struct run *run, const mu_operation *o)
{
    if (o->kind == MU_STORE && o->place >= rows_at(run)) {
        run->stored[o->place - rows_at(run)] = o->value;
        run->is_stored[o->place - rows_at(run)] = 1;
    }
}

/* One step of a replica: it asks, its access is made, or it takes the word. */
static void step(struct run *run, struct one *one, struct told *told)
{
    uint64_t *word = &run->memory[(size_t)one->operation.host * run->words + one->operation.place];
    if (one->moment == RESTS) {
        one->end = mu_replica_next(&one->replica, &one->operation) == MU_DONE ? GOES_ON : HALTED;
        one->moment = ASKED;
    } else if (one->moment == ASKED) {
        one->found = made_alone(word, &one->operation);
        note_stored(run, &one->operation);
        one->moment = MADE;
    } else {
        enum answer wanted = is_refused(run, &one->operation, one->found);
        int is_taken = mu_replica_take(&one->replica, one->found) == MU_DONE;
        told->taken_wrongly += wanted == YES && is_taken;
        told->refused_wrongly += wanted == NO && !is_taken;
        one->end = is_taken ? GOES_ON : REFUSED;
        one->moment = RESTS;
    }
}

/* Somebody else writes: any bits, a small number, a word that stands elsewhere, or what stands there with a bit changed. */
static void write_stray(struct run *run)
{
    uint32_t words = run->count * run->words;
    uint64_t *word = &run->memory[below(words)];
    switch (below(4)) {
    case 0: *word = any_word(); break;
    case 1: *word = below(64); break;
    case 2: *word = run->memory[below(words)]; break;
    default: *word ^= UINT64_C(1) << below(64); break;
    }
}

static int has_finished(struct one *one)
{
    uint32_t how = 0, region, position;
    return one->end != GOES_ON || (mu_replica_end(&one->replica, &how, &region, &position) == MU_DONE && how == MU_END_FINISHED);
}

/* Steps of random replicas, until all have an end or there were too many. */
static void play(struct run *run, struct told *told)
{
    uint32_t stray_at = below(600 * run->count);
    for (uint32_t k = 0; k < STEPS * run->count; k++) {
        struct one *one = &run->each[below(run->count)];
        if (k == stray_at)
            write_stray(run);
        if (one->end == GOES_ON)
            step(run, one, told);
        int all = k % 256 == 0 && k > stray_at;
        for (uint32_t r = 0; all && r < run->count; r++)
            all = has_finished(&run->each[r]);
        if (all)
            return;
    }
}

/* What a replica has applied: how many entries, with the row of each. */
static uint32_t applied(struct one *one, uint32_t *rows)
{
    uint32_t count = 0, value;
    while (count < ENTRIES && mu_replica_applied(&one->replica, count, &value) == MU_DONE)
        rows[count++] = value % PAYLOADS;
    return count;
}

/* The reply that a store gives: which, and its value. Keys have values from 1 on, and 0 if they have none. */
static uint32_t reply_by(uint32_t *store, const struct command *it, uint32_t *value)
{
    uint32_t *held = &store[it->key - 'a'], before = *held;
    *value = before - 1;
    if (it->kind != 'g')
        *held = it->kind == 'd' ? 0 : it->value + 1;
    if (it->kind == 'p')
        return MU_REPLY_DONE;
    if (it->kind == 'd')
        return before ? MU_REPLY_DONE : MU_REPLY_NONE;
    return before ? MU_REPLY_VALUE : MU_REPLY_NONE;
}

/* Whether what a replica told isn't what a store tells that has the commands of its log, each client's in order and once. */
static int is_log_wrong(struct run *run, struct one *one, const uint32_t *rows, uint32_t count, uint32_t *replies)
{
    uint32_t store[KEYS] = { 0 }, next[3] = { 0 };
    for (uint32_t row = run->rows; row-- > 0;)
        next[run->command[row].client] = row;
    for (uint32_t k = 0; k < count; k++) {
        char text[TEXT], wanted[TEXT] = "";
        uint32_t value = 0, reply = 0;
        size_t taken = 0;
        if (rows[k] >= FIRST_MARK)
            continue;
        const struct command *it = &run->command[rows[k]];
        if (rows[k] >= run->rows || next[it->client]++ != rows[k])
            return 1;
        uint32_t kind = reply_by(store, it, &value);
        if (kind == MU_REPLY_VALUE)
            snprintf(wanted, sizeof wanted, "%u", value);
        if (mu_replica_reply(&one->replica, rows[k], &reply, text, sizeof text, &taken) != MU_DONE || reply != kind ||
            taken != strlen(wanted) || memcmp(text, wanted, taken) != 0)
            return 1;
        *replies |= 1u << rows[k];
    }
    return 0;
}

static void judge(struct run *run, struct told *told)
{
    uint32_t rows[2][ENTRIES], longest = 0, replies = 0, is_wrong = 0, is_refused = 0;
    for (uint32_t r = 0; r < run->count; r++) {
        uint32_t count = applied(&run->each[r], rows[1]), both = count < longest ? count : longest;
        is_wrong |= (uint32_t)(memcmp(rows[0], rows[1], both * sizeof rows[0][0]) != 0);
        is_wrong |= (uint32_t)is_log_wrong(run, &run->each[r], rows[1], count, &replies);
        is_refused |= run->each[r].end == REFUSED;
        if (count > longest)
            memcpy(rows[0], rows[1], count * sizeof rows[0][0]);
        longest = count > longest ? count : longest;
    }
    if (is_wrong)
        told->wrong++;
    else if (is_refused)
        told->refused++;
    else if (replies != (1u << run->rows) - 1)
        told->still++;
    else
        told->right++;
}

int main(int count, char **words)
{
    static struct run run;
    struct told told = { 0 };
    uint32_t runs = count > 1 ? (uint32_t)atoi(words[1]) : 100;
    uint64_t seed = count > 2 ? (uint64_t)atoll(words[2]) : 1;
    for (uint32_t k = 0; k < runs; k++) {
        chance_begin(seed + k);
        begin(&run);
        play(&run, &told);
        judge(&run, &told);
        for (uint32_t r = 0; r < run.count; r++)
            mu_replica_free(&run.each[r].replica);
        free(run.memory);
    }
    printf("right %u, still %u, refused %u, wrong %u; words taken that are to be refused: %u, and refused that are to be taken:"
           " %u\n", told.right, told.still, told.refused, told.wrong, told.taken_wrongly, told.refused_wrongly);
    return told.taken_wrongly + told.refused_wrongly > 0;
}
