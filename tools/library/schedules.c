/* Replicas over an array of words, by random schedules: accesses are made late and taken late, replicas
 * are cut off at any moment, commands come to each at moments of its own, stray words are offered. Each
 * list is judged, in the order of its accesses, and no two replicas may have different replies.
 *
 *     cc -std=c11 -Ic tools/library/schedules.c out/libmu.a -o schedules && ./schedules RUNS SEED */
#include "chance.h"

uint64_t chance;

enum { MOST = 7, LINE = 192, TEXT = 64, EVENTS = 60000, JOB = 4096, COMMANDS = 24 };

/* Where a replica is between two steps of its own. */
enum moment { RESTS, ASKED, MADE, CUT, HALTED };

struct one {
    mu_replica replica;
    mu_operation operation;
    uint64_t found;
    size_t event; /* which access it made last */
    uint32_t rows, decided, needs; /* how many rows it knows, knew when it decided, and has to know to take the word */
    enum moment moment;
    int has_made;
};

struct run {
    struct one each[MOST];
    uint32_t count, words, rows, last_client;
    uint32_t used; /* the rows by which an access so far was decided */
    char come[COMMANDS][TEXT];
    uint64_t *memory;
    char (*lines)[LINE];
    size_t *lengths;
    size_t events;
    char job[JOB];
};

static void fail(const char *what)
{
    printf("schedules: %s\n", what);
    exit(1);
}

/* One more command, as a line. */
static void draw_command(char *line)
{
    static const char *const KINDS[] = { "put %c %u", "get %c", "swap %c %u", "del %c" };
    uint32_t kind = below(4);
    char form[16];
    strcpy(form, KINDS[kind]);
    if (strstr(form, "%u"))
        snprintf(line, TEXT, form, 'a' + (int)below(3), below(1000));
    else
        snprintf(line, TEXT, form, 'a' + (int)below(3));
}

static void begin(struct run *run)
{
    uint32_t hosts = 0, clients = 1 + below(3);
    char line[TEXT];
    run->count = 1 + below(MOST);
    int used = snprintf(run->job, JOB, "mu 1\nreplicas %u\nring %u\nbudget 60000\n", run->count, 8 + below(40));
    run->rows = 0;
    for (uint32_t client = 0; client < clients; client++) {
        used += snprintf(run->job + used, JOB - (size_t)used, "client %u\n", client);
        for (uint32_t k = 1 + below(5); k > 0; k--, run->rows++) {
            draw_command(line);
            used += snprintf(run->job + used, JOB - (size_t)used, "%s\n", line);
        }
    }
    run->last_client = clients - 1;
    run->used = run->rows;
    snprintf(run->job + used, JOB - (size_t)used, "end\n");
    uint32_t eager = below(2);
    for (uint32_t r = 0; r < run->count; r++) {
        memset(&run->each[r], 0x5a, sizeof run->each[r]);
        if (mu_replica_new(&run->each[r].replica, run->job, strlen(run->job), r, eager, COMMANDS) != MU_DONE)
            fail("no replica");
        run->each[r].moment = RESTS;
        run->each[r].rows = run->rows;
        run->each[r].has_made = 0;
    }
    run->job[used] = 0;
    mu_replica_shape(&run->each[0].replica, &hosts, &run->words);
    run->memory = calloc((size_t)hosts * run->words, sizeof *run->memory);
    for (uint32_t p = 0; p < hosts; p++)
        run->memory[(size_t)p * run->words] = MU_FIRST_FENCE;
    run->events = 0;
}

/* Appends what has come, up to this row; what is under way stays the same. */
static void append_to(struct run *run, struct one *one, uint32_t rows)
{
    mu_operation again;
    uint32_t row;
    for (; one->rows < rows; one->rows++) {
        const char *line = run->come[one->rows];
        if (mu_replica_append(&one->replica, run->last_client, line, strlen(line), &row) != MU_DONE || row != one->rows)
            fail("a command isn't appended");
        if ((one->moment == ASKED || one->moment == MADE) &&
            (mu_replica_next(&one->replica, &again) != MU_DONE || memcmp(&again, &one->operation, sizeof again) != 0))
            fail("a command changes the access");
    }
}

/* Takes the word that was found, and keeps the event's line at the place of its access. */
static void take(struct run *run, struct one *one)
{
    append_to(run, one, one->needs);
    if (one->operation.kind != MU_STORE && below(50) == 0 && mu_replica_take(&one->replica, UINT64_MAX) != MU_STRAY)
        fail("a stray word is taken");
    if (mu_replica_take(&one->replica, one->found) != MU_DONE)
        fail("a word is refused");
    size_t at = one->event;
    if (mu_replica_event(&one->replica, run->lines[at], LINE, &run->lengths[at]) != MU_DONE)
        fail("no event");
    one->has_made = 0;
}

/* One step of a replica: it asks, its access is made, or it takes the word. Before that it may take one
 * command that has come. When it takes a word it has to know the rows by which the accesses before its
 * own were decided, and no others. */
static void step(struct run *run, struct one *one)
{
    if (one->moment < CUT && one->rows < run->rows && below(200) == 0)
        append_to(run, one, one->rows + 1);
    if (one->moment == RESTS) {
        uint32_t status = mu_replica_next(&one->replica, &one->operation);
        one->moment = status == MU_DONE ? ASKED : HALTED;
        one->decided = one->rows;
    } else if (one->moment == ASKED) {
        mu_operation again;
        if (mu_replica_next(&one->replica, &again) != MU_DONE || memcmp(&again, &one->operation, sizeof again) != 0)
            fail("another access");
        one->found = made_alone(&run->memory[(size_t)one->operation.host * run->words + one->operation.place], &again);
        one->event = run->events++;
        one->needs = run->used;
        if (run->used < one->decided)
            run->used = one->decided;
        one->has_made = 1;
        one->moment = MADE;
    } else if (one->moment == MADE) {
        take(run, one);
        one->moment = RESTS;
    }
}

/* A command comes: each replica takes it when it will. */
static void come(struct run *run)
{
    if (run->rows == COMMANDS)
        return;
    char *line = run->come[run->rows++];
    draw_command(line);
    size_t used = strlen(run->job);
    snprintf(run->job + used, JOB - used, "%s\n", line);
}

static uint32_t finished(struct run *run)
{
    uint32_t ended = 0, how, region, position;
    for (uint32_t r = 0; r < run->count; r++)
        if (run->each[r].moment == CUT || run->each[r].moment == HALTED ||
            (run->each[r].moment == RESTS && run->each[r].rows == run->rows &&
             mu_replica_end(&run->each[r].replica, &how, &region, &position) == MU_DONE))
            ended++;
    return ended == run->count;
}

static void judge(struct run *run)
{
    mu_judge judge;
    char text[LINE];
    size_t taken, used = strlen(run->job);
    snprintf(run->job + used, JOB - used, "end\n");
    if (mu_judge_new(&judge, run->job, strlen(run->job), text, sizeof text, &taken) != MU_DONE)
        fail("no judge");
    for (size_t k = 0; k < run->events; k++)
        if (mu_judge_take(&judge, run->lines[k], run->lengths[k]) != MU_DONE)
            fail("an illegal list");
    mu_judge_free(&judge);
}

/* How many rows have a reply, of which no two replicas tell different ones. */
static uint32_t replies(struct run *run)
{
    uint32_t told = 0;
    for (uint32_t row = 0; row < run->rows; row++) {
        char first[TEXT], text[TEXT];
        size_t length = 0, taken;
        uint32_t kind = 0, reply;
        for (uint32_t r = 0; r < run->count; r++) {
            if (mu_replica_reply(&run->each[r].replica, row, &reply, text, TEXT, &taken) != MU_DONE)
                continue;
            if (kind == 0) {
                kind = reply;
                length = taken;
                memcpy(first, text, taken);
            } else if (reply != kind || taken != length || memcmp(first, text, taken) != 0) {
                fail("two replies");
            }
        }
        told += kind != 0;
    }
    return told;
}

int main(int count, char **words)
{
    static struct run run;
    uint64_t events = 0, told = 0, cut = 0;
    uint32_t runs = count > 1 ? (uint32_t)atoi(words[1]) : 10;
    chance_begin(count > 2 ? (uint64_t)atoll(words[2]) : 1);
    run.lines = malloc(EVENTS * sizeof *run.lines);
    run.lengths = malloc(EVENTS * sizeof *run.lengths);
    for (uint32_t k = 0; k < runs; k++) {
        begin(&run);
        while (!finished(&run) && run.events + 2 * MOST < EVENTS) {
            struct one *one = &run.each[below(run.count)];
            if (below(4000) == 0 && one->moment != HALTED && one->moment != CUT) {
                one->moment = CUT;
                cut++;
            }
            if (below(600) == 0)
                come(&run);
            step(&run, one);
        }
        for (uint32_t r = 0; r < run.count; r++)
            if (run.each[r].has_made)
                take(&run, &run.each[r]);
        judge(&run);
        told += replies(&run);
        events += run.events;
        for (uint32_t r = 0; r < run.count; r++)
            mu_replica_free(&run.each[r].replica);
        free(run.memory);
    }
    printf("%u runs, %llu events, %llu replies, %llu replicas cut off: all lists are legal\n", runs,
           (unsigned long long)events, (unsigned long long)told, (unsigned long long)cut);
    free(run.lines);
    free(run.lengths);
    return 0;
}
