/* hosts.c: reading the file of hosts, and hosts on this machine. */
#define _GNU_SOURCE
#include "hosts.h"

#include <arpa/inet.h>
#include <stdio.h>
#include <string.h>
#include <sys/random.h>
#include <sys/socket.h>
#include <unistd.h>

/* Ports below those that connections get by themselves. */
enum { LEAST_PORT = 10000, PORTS = 20000, TRIES = 1000 };

/* Reads a line, without its line feed: 0 if it is one. */
static int line_read(struct hosts *hosts, const char *line)
{
    struct host *host = &hosts->host[hosts->count];
    unsigned id;
    char rest;
    if (*line == '#' || *line == '\0')
        return 0;
    if (hosts->count == MOST_REPLICAS || sscanf(line, "%u %127s %31s %c", &id, host->node, host->service, &rest) != 3 ||
        id != hosts->count)
        return -1;
    hosts->count++;
    return 0;
}

int hosts_read(const struct plan *plan, struct hosts *hosts, const char *name)
{
    FILE *from = fopen(name, "r");
    char line[256];
    int status = 0;
    memset(hosts, 0, sizeof *hosts);
    if (from == NULL) {
        say(plan, "there is no file %s, or none that can be read", name);
        return -1;
    }
    while (status == 0 && fgets(line, sizeof line, from)) {
        line[strcspn(line, "\n")] = '\0';
        status = line_read(hosts, line);
    }
    fclose(from);
    if (status)
        say(plan, "%s: a line should be `%u NODE SERVICE`, of at most %d hosts: %s", name, hosts->count, MOST_REPLICAS, line);
    else if (hosts->count == 0)
        say(plan, "%s has no host", name);
    return hosts->count && status == 0 ? 0 : -1;
}

/* A port that nobody has now; 0 if none was found. */
static uint16_t free_port(void)
{
    for (int k = 0; k < TRIES; k++) {
        uint16_t drawn = 0;
        getrandom(&drawn, sizeof drawn, 0);
        uint16_t port = (uint16_t)(LEAST_PORT + drawn % PORTS);
        struct sockaddr_in at = { .sin_family = AF_INET, .sin_port = htons(port) };
        at.sin_addr.s_addr = htonl(INADDR_LOOPBACK);
        int probe = socket(AF_INET, SOCK_STREAM, 0);
        int is_free = probe >= 0 && bind(probe, (struct sockaddr *)&at, sizeof at) == 0;
        if (probe >= 0)
            close(probe);
        if (is_free)
            return port;
    }
    return 0;
}

int hosts_here(const struct plan *plan, struct hosts *hosts, uint32_t count)
{
    memset(hosts, 0, sizeof *hosts);
    for (hosts->count = 0; hosts->count < count; hosts->count++) {
        struct host *host = &hosts->host[hosts->count];
        uint16_t port = free_port();
        if (port == 0) {
            say(plan, "no port of the loopback is free");
            return -1;
        }
        snprintf(host->node, sizeof host->node, "127.0.0.1");
        snprintf(host->service, sizeof host->service, "%u", port);
    }
    return 0;
}
