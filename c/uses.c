/* Uses each call of mu.h once, as C and as C++:
 *
 *     cc -std=c11 -Ic c/uses.c out/libmu.a -o uses && ./uses
 *     c++ -std=c++11 -x c++ -Ic c/uses.c -x none out/libmu.a -o uses && ./uses
 *
 * What is wanted stands here; it isn't what the library answered. */
#include "mu.h"

#include <stdio.h>
#include <string.h>

static int wrong;

static void expect(const char *what, int holds)
{
    if (!holds) {
        printf("wrong: %s\n", what);
        wrong++;
    }
}

/* Whether the room begins with this text, and this is its length. */
static int has(const char *room, size_t taken, const char *text)
{
    return taken == strlen(text) && memcmp(room, text, taken) == 0;
}

static const char JOB[] = "mu 1\nreplicas 1\nring 8\nbudget 99\nclient 0\nput a 5\nend\n";
static const char REPORT[] =
    "report 1\nlog 0 entries 1 commits 1 finished\n0 0.1 put a 5\nreplies 1\n0.1 done\nstatus 0\n";
static const char TRACE[] = "mu 1\nreplicas 1\nring 8\nbudget 9\nend\n0 ask 0 = done\nend\n";
static const char BROKEN[] = "mu 1\nreplicas 1\nring 8\nbudget 9\nend\n0 beat = done\n0 grant 0 = done\nend\n";
static const char USAGE[] =
    "usage: mu replay, mu eager, mu run, mu check, mu why, mu tell, mu show N, mu attest, mu trace, mu eager trace, mu enough, mu bulk N, mu live K, mu desk, mu book, mu serve N\n";

static void answers(void)
{
    static char out[4096];
    char few[8] = "-------";
    size_t taken = 0;

    expect("replay", mu_answer(MU_REPLAY, JOB, strlen(JOB), out, sizeof out, &taken) == MU_DONE);
    expect("its report", has(out, taken, REPORT));
    expect("replay with little room", mu_answer(MU_REPLAY, JOB, strlen(JOB), few, 6, &taken) == MU_DONE);
    expect("the first bytes alone", memcmp(few, "report-", 8) == 0 && taken == strlen(REPORT));
    expect("replay with no room", mu_answer(MU_REPLAY, JOB, strlen(JOB), few, 0, &taken) == MU_DONE);
    expect("no byte", memcmp(few, "report-", 8) == 0 && taken == strlen(REPORT));
    expect("replay with no place", mu_answer(MU_REPLAY, JOB, strlen(JOB), NULL, 0, &taken) == MU_DONE && taken == strlen(REPORT));
    expect("no input at no place", mu_answer(MU_CHECK, NULL, 0, NULL, 0, &taken) == MU_REFUSED && taken == 24);

    expect("check", mu_answer(MU_CHECK, TRACE, strlen(TRACE), out, sizeof out, &taken) == MU_DONE);
    expect("legal", has(out, taken, "legal 1\n"));
    expect("check of a broken list",
           mu_answer(MU_CHECK, BROKEN, strlen(BROKEN), out, sizeof out, &taken) == MU_ILLEGAL);
    expect("illegal", has(out, taken, "illegal 1 not allowed\n"));
    expect("why", mu_answer(MU_WHY, BROKEN, strlen(BROKEN), out, sizeof out, &taken) == MU_ILLEGAL);
    expect("its line", taken > 20 && memcmp(out, "illegal 1 at line 7\n", 20) == 0);
    expect("what is no trace", mu_answer(MU_CHECK, "", 0, out, sizeof out, &taken) == MU_REFUSED);
    expect("refused", has(out, taken, "refused line 1 cause 11\n"));

    expect("no task", mu_answer(0, JOB, strlen(JOB), out, sizeof out, &taken) == MU_USAGE);
    expect("usage", has(out, taken, USAGE));
    expect("bulk", mu_answer(MU_BULK, "10", 2, out, sizeof out, &taken) == MU_DONE);
    expect("its sum", taken > 8 && memcmp(out, "bulk 10\n", 8) == 0);
    expect("no number", mu_answer(MU_BULK, "1501", 4, out, sizeof out, &taken) == MU_USAGE);
    expect("trace", mu_answer(MU_TRACE, JOB, strlen(JOB), out, sizeof out, &taken) == MU_DONE);
    expect("the job first", taken > 5 && memcmp(out, "mu 1\n", 5) == 0);
    expect("no book of orders", mu_answer(MU_BOOK, JOB, strlen(JOB), out, sizeof out, &taken) == MU_DONE);
}

/* What the one ask of TRACE comes to. */
static const char TOLD[] = "report 1\nlog 0 entries 0 commits 0 finished\nreplies 0\nstatus 0\n";
static const char SHOWN[] =
    "after 1 of 1\n"
    "region 0 fence none 0 open none\n"
    "region 0 min 0 fuo 0 head 0 beats 0\n"
    "region 0 asks of 0: 1\n"
    "replica 0 steps 1 known 0 applied 0 names 0\n"
    "replica 0 leadership begun\n";

/* A command that was got, and one that is answered before it is applied. */
static const char SEEN[] =
    "mu 1\nreplicas 1\nring 8\nbudget 9\nclient 0\nput a 5\nend\ngot 0\n0 ask 0 = done\nend\n";
static const char EARLY[] =
    "mu 1\nreplicas 1\nring 8\nbudget 9\nclient 0\nput a 5\nend\n0 beat = done\n0 told 0 = done\nend\n";
static const char TOO_EARLY[] =
    "illegal after 1 at line 9\n0 told 0 = done\nnot allowed: replica 0 has not applied row 0\n";

static void moments(void)
{
    static char out[4096];
    size_t taken = 0;

    expect("tell", mu_answer(MU_TELL, TRACE, strlen(TRACE), out, sizeof out, &taken) == MU_DONE);
    expect("what is told", has(out, taken, TOLD));
    expect("tell of a broken list",
           mu_answer(MU_TELL, BROKEN, strlen(BROKEN), out, sizeof out, &taken) == MU_ILLEGAL);
    expect("attest", mu_answer(MU_ATTEST, SEEN, strlen(SEEN), out, sizeof out, &taken) == MU_DONE);
    expect("a command got", has(out, taken, "legal 1 got 1 told 0\n"));
    expect("attest of a reply too early",
           mu_answer(MU_ATTEST, EARLY, strlen(EARLY), out, sizeof out, &taken) == MU_ILLEGAL);
    expect("why it is", has(out, taken, TOO_EARLY));
    expect("show", mu_show_answer(1, TRACE, strlen(TRACE), out, sizeof out, &taken) == MU_DONE);
    expect("what is shown", has(out, taken, SHOWN));
    expect("show beyond the end",
           mu_show_answer(9, TRACE, strlen(TRACE), out, sizeof out, &taken) == MU_DONE);
    expect("the last moment", has(out, taken, SHOWN));
    expect("show before the break",
           mu_show_answer(1, BROKEN, strlen(BROKEN), out, sizeof out, &taken) == MU_DONE);
    expect("its first line", taken > 13 && memcmp(out, "after 1 of 2\n", 13) == 0);
    expect("show after the break",
           mu_show_answer(2, BROKEN, strlen(BROKEN), out, sizeof out, &taken) == MU_ILLEGAL);
    expect("no such moment",
           mu_show_answer(10000000, TRACE, strlen(TRACE), out, sizeof out, &taken) == MU_USAGE);
}

static void pictures(void)
{
    static char out[65536];
    size_t taken = 0;

    expect("picture",
           mu_draw_answer(0, MU_LAST_STEP, TRACE, strlen(TRACE), out, sizeof out, &taken) == MU_DONE);
    expect("SVG", taken > 4 && memcmp(out, "<svg", 4) == 0);
    expect("picture of a broken list",
           mu_draw_answer(0, 3, BROKEN, strlen(BROKEN), out, sizeof out, &taken) == MU_ILLEGAL);
    expect("SVG of it", taken > 4 && memcmp(out, "<svg", 4) == 0);
    expect("no steps", mu_draw_answer(3, 1, TRACE, strlen(TRACE), out, sizeof out, &taken) == MU_USAGE);
}

static uint32_t take(mu_judge *judge, const char *line)
{
    return mu_judge_take(judge, line, strlen(line));
}

static void judges(void)
{
    static char out[4096];
    size_t taken = 99;
    mu_judge judge;

    memset(&judge, 0xa5, sizeof judge);
    expect("a job that isn't one", mu_judge_new(&judge, "mu 3\n", 5, out, sizeof out, &taken) == MU_REFUSED);
    expect("its line", has(out, taken, "refused line 1 cause 1\n") && judge.at == NULL);
    expect("a judge", mu_judge_new(&judge, JOB, strlen(JOB), out, sizeof out, &taken) == MU_DONE);
    expect("nothing is said", taken == 0 && judge.at != NULL);
    expect("an ask", take(&judge, "0 ask 0 = done") == MU_DONE);
    expect("no event", take(&judge, "0 asks 0 = done") == MU_REFUSED && mu_judge_take(&judge, NULL, 0) == MU_REFUSED);
    expect("a read", take(&judge, "0 readask 0 = 1") == MU_DONE);
    expect("two are legal", mu_judge_why(&judge, out, sizeof out, &taken) == MU_DONE);
    expect("legal 2", has(out, taken, "legal 2\n"));
    expect("its length", mu_judge_why(&judge, NULL, 0, &taken) == MU_DONE && taken == 8);
    expect("a grant without the close", take(&judge, "0 grant 0 = done") == MU_ILLEGAL);
    expect("it stays broken", take(&judge, "0 beat = done") == MU_ILLEGAL);
    expect("why", mu_judge_why(&judge, out, sizeof out, &taken) == MU_ILLEGAL);
    expect("its line", taken > 38 && memcmp(out, "illegal 2 at line 10\n0 grant 0 = done\n", 38) == 0);
    mu_judge_free(&judge);
    expect("no judge any more", judge.at == NULL && take(&judge, "0 ask 0 = done") == MU_USAGE);
    expect("nothing to say", mu_judge_why(&judge, out, sizeof out, &taken) == MU_USAGE && taken == 0);
    mu_judge_free(&judge);
    expect("still no judge", judge.at == NULL);
}

static uint32_t submit(mu_engine *engine, uint32_t client, const char *line, uint64_t *row)
{
    return mu_engine_submit(engine, client, line, strlen(line), row);
}

/* What isn't an engine, and numbers out of their limits. */
static void no_engines(void)
{
    static const uint32_t beyond[][4] = { { 0, 64, 99, 1 },  { 8, 64, 99, 1 },     { 3, 7, 99, 1 },    { 3, 1025, 99, 1 },
                                          { 3, 64, 0, 1 },   { 3, 64, 131072, 1 }, { 3, 64, 99, 0 },   { 256, 64, 99, 1 },
                                          { 3, 64, 99, 59 }, { 7, 1024, 99, 1011 }, { 3, 65600, 99, 1 }, { 3, 64, 99, 65536 } };
    mu_engine engine = MU_NO_ENGINE;
    mu_state state;
    mu_hold hold;
    char out[64] = "-------";
    uint32_t reply = 9;
    uint64_t row = 9;
    size_t taken = 9, k;

    for (k = 0; k < sizeof beyond / sizeof *beyond; k++) {
        memset(&engine, 0x5a, sizeof engine);
        expect("a number out of its limits",
               mu_engine_new(&engine, beyond[k][0], beyond[k][1], beyond[k][2], beyond[k][3]) == MU_BEYOND && engine.at == NULL);
    }
    expect("no engine to submit to", submit(&engine, 0, "get a", &row) == MU_EMPTY && row == 0);
    expect("no engine to play", mu_engine_round(&engine) == MU_EMPTY);
    expect("no engine to stop", mu_engine_stop(&engine, 0) == MU_EMPTY && mu_engine_pause(&engine, 0, 1) == MU_EMPTY);
    expect("no engine to come back to", mu_engine_back(&engine, 0) == MU_EMPTY);
    expect("no engine that replies", mu_engine_reply(&engine, 0, &reply, out, sizeof out, &taken) == MU_EMPTY);
    expect("nothing is told", reply == 0 && taken == 0 && memcmp(out, "-------", 8) == 0);
    expect("no engine to wait for", mu_engine_until(&engine, 0, 9, &reply, out, sizeof out, &taken) == MU_EMPTY && taken == 0);
    expect("no engine that stands", mu_engine_state(&engine, &state) == MU_EMPTY && state.commands == 0 && state.replicas == 0);
    expect("no engine with replicas", mu_engine_hold(&engine, 0, &hold) == MU_EMPTY && hold.stopped == 0 && hold.rounds == 0);
    taken = 9;
    expect("no engine with a trace", mu_engine_trace(&engine, out, sizeof out, &taken) == MU_EMPTY && taken == 0);
    mu_engine_free(&engine);
    expect("still none", engine.at == NULL);
}

/* The reply to a row, once it is there: its number, if its text is this. */
static uint32_t reply_to(mu_engine *engine, uint64_t row, const char *text)
{
    char out[64];
    uint32_t reply = 0;
    size_t taken = 0;

    if (mu_engine_until(engine, row, 6000, &reply, out, sizeof out, &taken) != MU_DONE)
        return 0;
    return has(out, taken, text) ? reply : 0;
}

static void traces(mu_engine *engine)
{
    static char trace[1 << 20], out[64];
    uint64_t row = 9;
    size_t taken = 0;

    expect("its trace's length", mu_engine_trace(engine, NULL, 0, &taken) == MU_DONE && taken > 5);
    expect("its trace", mu_engine_trace(engine, trace, sizeof trace, &taken) == MU_DONE && taken > 5 && memcmp(trace, "mu 2\n", 5) == 0);
    expect("is legal", taken <= sizeof trace && mu_answer(MU_CHECK, trace, taken, out, sizeof out, &taken) == MU_DONE);
    expect("a get of nothing", submit(engine, 0, "get b", &row) == MU_DONE && row == 3);
    expect("none", reply_to(engine, 3, "") == MU_REPLY_NONE);
    expect("no text of a job", mu_engine_trace(engine, trace, sizeof trace, &taken) == MU_MIXED && taken == 0);
}

static void holds(mu_engine *engine)
{
    mu_hold hold;
    mu_state state;
    expect("a stop", mu_engine_stop(engine, 0) == MU_DONE);
    expect("a stopped replica", mu_engine_stop(engine, 0) == MU_STOPPED && mu_engine_pause(engine, 0, 3) == MU_STOPPED);
    expect("no such replica", mu_engine_stop(engine, 3) == MU_NO_SUCH_REPLICA && mu_engine_pause(engine, 256, 3) == MU_NO_SUCH_REPLICA);
    expect("nor to come back", mu_engine_back(engine, 3) == MU_NO_SUCH_REPLICA && mu_engine_hold(engine, 256, &hold) == MU_NO_SUCH_REPLICA);
    expect("a pause", mu_engine_pause(engine, 1, 40) == MU_DONE);
    expect("what holds it", mu_engine_hold(engine, 1, &hold) == MU_DONE && hold.stopped == 0 && hold.rounds == 40);
    expect("what holds the other", mu_engine_hold(engine, 0, &hold) == MU_DONE && hold.stopped == 1);
    expect("one is free", mu_engine_state(engine, &state) == MU_DONE && state.free == 1 && state.replicas == 3);
    expect("two commands", state.commands == 2 && state.room == 3 && state.eras == 0 && state.first_row == 0);
}

static void engines(void)
{
    char out[64];
    mu_engine engine;
    mu_state state;
    uint32_t reply = 9;
    uint64_t row = 9;
    size_t taken = 9;

    memset(&engine, 0xa5, sizeof engine);
    expect("an engine", mu_engine_new(&engine, 3, 64, 20000, 5) == MU_DONE && engine.at != NULL);
    expect("a bad client", submit(&engine, 16, "get a", &row) == MU_NO_SUCH_CLIENT && row == 0);
    expect("one of many bits", submit(&engine, 256, "get a", &row) == MU_NO_SUCH_CLIENT);
    expect("a bad line", submit(&engine, 0, "get", &row) == MU_REFUSED && submit(&engine, 0, "", &row) == MU_REFUSED);
    expect("a line feed", submit(&engine, 0, "get a\n", &row) == MU_REFUSED && row == 0);
    expect("a put", submit(&engine, 0, "put a 5", &row) == MU_DONE && row == 0);
    expect("no reply yet", mu_engine_reply(&engine, 0, &reply, out, sizeof out, &taken) == MU_UNFINISHED && reply == 0 && taken == 0);
    expect("nor in one round", mu_engine_until(&engine, 0, 1, &reply, out, sizeof out, &taken) == MU_UNFINISHED && reply == 0 && taken == 0);
    expect("no such row", mu_engine_reply(&engine, 1, &reply, out, sizeof out, &taken) == MU_NO_SUCH_ROW);
    expect("none of many bits", mu_engine_reply(&engine, UINT64_C(4294967296), &reply, out, sizeof out, &taken) == MU_NO_SUCH_ROW);
    expect("done", reply_to(&engine, 0, "") == MU_REPLY_DONE);
    expect("a get", submit(&engine, 0, "get a", &row) == MU_DONE && row == 1 && reply_to(&engine, 1, "5") == MU_REPLY_VALUE);
    expect("its length", mu_engine_reply(&engine, 1, &reply, NULL, 0, &taken) == MU_DONE && reply == MU_REPLY_VALUE && taken == 1);
    holds(&engine);
    expect("a cas", submit(&engine, 1, "cas a 6 7", &row) == MU_DONE && row == 2);
    expect("what is kept", reply_to(&engine, 2, "5") == MU_REPLY_KEPT);
    traces(&engine);
    expect("the last one of the era", submit(&engine, 0, "get b", &row) == MU_DONE && row == 4);
    expect("too many", submit(&engine, 0, "get b", &row) == MU_FULL && row == 0);
    expect("a return", mu_engine_back(&engine, 0) == MU_DONE && mu_engine_back(&engine, 0) == MU_DONE);
    expect("none", reply_to(&engine, 4, "") == MU_REPLY_NONE && mu_engine_round(&engine) == MU_DONE);
    expect("the next era", mu_engine_state(&engine, &state) == MU_DONE && state.eras == 1 && state.room == 5 && state.free == 3);
    for (row = 5; row < 12; row++)
        expect("later eras", submit(&engine, 0, "get a", &row) == MU_DONE && reply_to(&engine, row, "5") == MU_REPLY_VALUE);
    expect("a row of the era before", mu_engine_reply(&engine, 5, &reply, out, sizeof out, &taken) == MU_DONE && taken == 1);
    expect("an old row", mu_engine_reply(&engine, 4, &reply, out, sizeof out, &taken) == MU_OLD_ROW && taken == 0);
    mu_engine_free(&engine);
    expect("another in its place", mu_engine_new(&engine, 1, 8, 999, 1) == MU_DONE);
    expect("no pause", mu_engine_pause(&engine, 0, 900) == MU_DONE && mu_engine_pause(&engine, 0, 0) == MU_DONE);
    expect("a new row", submit(&engine, 15, "get a", &row) == MU_DONE && row == 0);
    expect("nothing there", reply_to(&engine, 0, "") == MU_REPLY_NONE);
    mu_engine_free(&engine);
    expect("no engine any more", engine.at == NULL && mu_engine_round(&engine) == MU_EMPTY);
}

int main(void)
{
    answers();
    moments();
    pictures();
    judges();
    no_engines();
    engines();
    puts(wrong ? "mu.h is not as it says" : "mu.h is as it says");
    return wrong ? 1 : 0;
}
