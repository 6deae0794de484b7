/* hosts.h: at which address the memory of each host answers. A file has a line a host, in order of id: `ID NODE SERVICE`, as
 * `0 10.0.0.1 7470`; empty lines and those that begin with # say nothing. */
#ifndef HOSTS_H
#define HOSTS_H

#include "plan.h"

struct host {
    char node[128], service[32];
};

struct hosts {
    uint32_t count;
    struct host host[MOST_REPLICAS];
};

/* Reads the file of this name: 0, or -1 and a line that says why. */
int hosts_read(const struct plan *plan, struct hosts *hosts, const char *name);

/* Gives each of so many hosts a port of the loopback that nobody has now: 0, or -1 and a line. */
int hosts_here(const struct plan *plan, struct hosts *hosts, uint32_t count);

#endif
