/* Tells how many bytes the library asks for at most: of an engine, of stores, of a server and its connections, of a judge, of a
 * replica. Its heap counts, in place of c/heap.c, and nothing may be left at the end.
 *
 *     cc -std=c11 -Ic tools/library/rooms.c out/libmu.a -o rooms && ./rooms */
#include "mu_server.h"

#include <stdbool.h>
#include <stdio.h>
#include <stdlib.h>
#include <string.h>

enum { HEAD = 16, TEXT = 128, JOB = 64000, FEW = 20, PIPELINED = 64, MOST_ROUNDS = 20000 };

struct block {
    bool is_there;
    void *at;
};

struct block rattle_alloc(size_t size, size_t align);
struct block rattle_realloc(void *at, size_t kept, size_t size, size_t align);
void rattle_dealloc(void *at);

static size_t held, most;

/* What a block has is written in front of it. */
static struct block block_of(char *whole, size_t before, size_t size)
{
    if (whole == NULL)
        exit(2);
    memcpy(whole, &size, sizeof size);
    held += size - before;
    most = held > most ? held : most;
    return (struct block){ true, whole + HEAD };
}

static size_t size_of(void *at)
{
    size_t size;
    memcpy(&size, (char *)at - HEAD, sizeof size);
    return size;
}

struct block rattle_alloc(size_t size, size_t align)
{
    (void)align;
    return block_of(malloc(size + HEAD), 0, size);
}

struct block rattle_realloc(void *at, size_t kept, size_t size, size_t align)
{
    size_t before = size_of(at);
    (void)kept, (void)align;
    return block_of(realloc((char *)at - HEAD, size + HEAD), before, size);
}

void rattle_dealloc(void *at)
{
    held -= size_of(at);
    free((char *)at - HEAD);
}

static void need(int is_so, const char *what)
{
    if (is_so)
        return;
    printf("rooms: %s\n", what);
    exit(1);
}

static void tell(const char *name)
{
    printf("%s: %zu\n", name, most);
    need(held == 0, "something is left");
    most = 0;
}

/* An engine that puts so many keys, each in its turn, and then some of them again. */
static void engine_tells(const char *name, uint32_t replicas, uint32_t places, uint32_t commands, uint32_t keys, uint32_t puts)
{
    mu_engine engine;
    char line[TEXT], out[TEXT];
    uint32_t reply;
    uint64_t row;
    size_t taken;
    need(mu_engine_new(&engine, replicas, places, 131071, commands) == MU_DONE, "no engine");
    for (uint32_t k = 0; k < puts; k++) {
        int length = snprintf(line, sizeof line, "put key%u value%u", k % keys, k);
        need(mu_engine_submit(&engine, 0, line, (size_t)length, &row) == MU_DONE, "no room");
        need(mu_engine_until(&engine, row, MOST_ROUNDS, &reply, out, sizeof out, &taken) == MU_DONE && reply == MU_REPLY_DONE,
             "no reply");
    }
    mu_engine_free(&engine);
    tell(name);
}

/* What a client sends goes in whole; all of its answers are given, or those are left that there is no room for. */
static void talk(mu_server *server, uint32_t number, const char *text, int is_read)
{
    char out[MU_SERVER_PIECE];
    uint32_t waits;
    size_t taken;
    need(mu_server_take(server, number, text, strlen(text), &taken) == MU_DONE && taken == strlen(text), "bytes aren't taken");
    mu_server_play(server, MOST_ROUNDS, &waits);
    for (taken = 1; is_read && taken > 0;)
        mu_server_give(server, number, out, sizeof out, &taken);
}

static void server_tells(const char *name, uint32_t connections, uint32_t keys, int is_read)
{
    mu_server server;
    char text[JOB] = "", line[TEXT];
    uint32_t number;
    need(mu_server_new(&server, 3) == MU_DONE, "no server");
    for (uint32_t k = 0; k < connections; k++)
        need(mu_server_open(&server, &number) == MU_DONE && number == k, "no connection");
    for (uint32_t k = 0; k < keys; k++) {
        snprintf(line, sizeof line, "*3\r\n$3\r\nSET\r\n$8\r\nkey%05u\r\n$10\r\nvalue%05u\r\n", k, k);
        talk(&server, k % connections, line, 1);
    }
    for (uint32_t k = 0; k < PIPELINED && !is_read; k++)
        strcat(text, "*2\r\n$3\r\nGET\r\n$8\r\nkey00001\r\n");
    for (uint32_t k = 0; k < connections && !is_read; k++)
        for (uint32_t n = 0; n < FEW; n++)
            talk(&server, k, text, 0);
    mu_server_free(&server);
    tell(name);
}

/* A job of so many replicas and commands: how long its text is. */
static size_t job_of(char *job, uint32_t replicas, uint32_t commands)
{
    size_t used = (size_t)sprintf(job, "mu 1\nreplicas %u\nring 64\nbudget 131071\nclient 0\n", replicas);
    for (uint32_t k = 0; k < commands; k++)
        used += (size_t)sprintf(job + used, "put key%u value%u\n", k, k);
    return used + (size_t)sprintf(job + used, "end\n");
}

static void judge_tells(const char *name, const char *job, size_t length)
{
    mu_judge judge;
    char out[TEXT];
    size_t taken;
    need(mu_judge_new(&judge, job, length, out, sizeof out, &taken) == MU_DONE, "no judge");
    need(mu_judge_take(&judge, "0 beat = done", 13) == MU_DONE, "no event");
    mu_judge_free(&judge);
    tell(name);
}

static void replica_tells(const char *name, const char *job, size_t length)
{
    mu_replica replica;
    need(mu_replica_new(&replica, job, length, 0, 1, 0) == MU_DONE, "no replica");
    mu_replica_free(&replica);
    tell(name);
}

int main(void)
{
    static char job[JOB];
    size_t length;
    engine_tells("an engine of few keys", 3, 128, 100, 4, 1000);
    engine_tells("an engine of 7, long eras", 7, 1024, 1000, 4, 2000);
    engine_tells("an engine of many keys", 3, 128, 100, 5000, 5000);
    server_tells("a server of one connection", 1, 8000, 1);
    server_tells("a server of 100 connections", 100, 1000, 1);
    server_tells("a server of 100 that read no answers", 100, 10, 0);
    length = job_of(job, 7, 1500);
    judge_tells("a judge of a large job", job, length);
    replica_tells("a replica of a large job", job, length);
    return 0;
}
