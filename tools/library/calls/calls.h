/* calls.h: what the players of the calls of mu.h share. */
#ifndef CALLS_H
#define CALLS_H

#include "../chance.h"

enum { HELD = 3, ROOM = 1 << 16, SEEN = 1 << 17, GUARD = 0x5a, HOSTS = 3, BUDGET = 4000 };

/* What can be watched. */
enum watched { A_JUDGE, AN_ENGINE, A_REPLICA };

struct calls {
    mu_judge judges[HELD];
    mu_engine engines[HELD];
    mu_replica replicas[HELD];
    mu_rests rests;
    uint64_t count, refusals;
    int is_wild; /* whether what is drawn for this call may be wrong */
    char *out; /* `room` bytes, and guards behind */
    size_t room;
};

extern struct calls calls;

/* Ends the program with a line, unless this is so. */
void expect(int is_so, const char *what);

/* A number up to this one; of a wild call also one that is near a limit, or any. */
uint32_t any_number(uint32_t most);

/* Some room for a text: none, a little, or enough. */
void give_room(void);

/* A call has told a text of so many bytes: it may not have written behind the room. */
void told(size_t taken, const char *what);

/* A line, which may be no command if the call is wild; and a job, which may be none. How many bytes they have. */
size_t command_drawn(char *line, size_t most);
size_t job_drawn(char *text, size_t most);

/* Looks at what the next call is about; and says that it was refused, or only asked: nothing may be otherwise. */
void watch(enum watched what, uint32_t k);
void refused(const char *what);

/* One call, or some. */
void play_judge(void);
void play_engine(void);
void play_replica(void);
void play_rests(void);
void play_server(void);
void end_replicas(void);
void end_servers(void);

#endif
