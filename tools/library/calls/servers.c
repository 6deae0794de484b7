/* servers.c: calls on servers, for connections that are there or not, with requests and with bytes that are none. */
#include "calls.h"

#include "mu_server.h"

enum { SERVERS = 2, NUMBERS = 16, WHOLE = MU_SERVER_TAKES | MU_SERVER_GIVES | MU_SERVER_ENDS | MU_SERVER_RESTS };

static mu_server servers[SERVERS];
static uint8_t is_open[SERVERS][NUMBERS], was_open[SERVERS][NUMBERS]; /* of the first connections */
static char states[2][NUMBERS * sizeof(uint32_t)];

/* What can be seen of a server without taking anything from it. */
static void see(uint32_t k, char *seen)
{
    for (uint32_t number = 0; number < NUMBERS; number++) {
        uint32_t state = 9;
        mu_server_state(&servers[k], number, &state);
        memcpy(seen + number * sizeof state, &state, sizeof state);
    }
}

static void expect_same(uint32_t k, const char *what)
{
    see(k, states[1]);
    expect(memcmp(states[0], states[1], sizeof states[0]) == 0, what);
    calls.refusals++;
}

/* A request, whole or cut, or bytes that are none. */
static size_t request_drawn(char *text, size_t most)
{
    static const char *const forms[] = { "PING\r\n", "SET %c %u\r\n", "GET %c\r\n", "DEL %c %c\r\n", "APPEND %c %u\r\n",
                                         "*2\r\n$3\r\nGET\r\n$1\r\n%c\r\n", "*3\r\n$3\r\nSET\r\n$1\r\n%c\r\n$2\r\n%u\r\n",
                                         "MULTI\r\n", "EXEC\r\n", "QUIT\r\n", "MU STOP %u\r\n", "MU BACK %u\r\n", "*-1\r\n",
                                         "*3000000000\r\n", "$5\r\n", "\r\n" };
    static const uint8_t likely[] = { 0, 1, 1, 2, 2, 3, 4, 5, 6, 6 };
    uint32_t kind = below(4) ? likely[below(sizeof likely)] : below(sizeof forms / sizeof *forms);
    uint32_t key = kind == 10 || kind == 11 ? below(4) : 'a' + below(3);
    int length = snprintf(text, most, forms[kind], key, kind == 3 ? 'a' + below(3) : 10 + below(90));
    if (calls.is_wild && below(3) == 0)
        text[below((uint32_t)length)] = (char)any_word();
    return calls.is_wild && below(4) == 0 ? below((uint32_t)length + 1) : (size_t)length;
}

/* Some requests at once, as far as they are taken. */
static void take(uint32_t k, uint32_t number)
{
    char text[1024] = { 0 };
    size_t length = 0, taken = 9;
    uint32_t state = 0;
    for (uint32_t n = below(4); n > 0; n--)
        length += request_drawn(text + length, 64);
    length += length == 0;
    see(k, states[0]);
    mu_server_state(&servers[k], number, &state);
    uint32_t status = mu_server_take(&servers[k], number, text, length, &taken);
    int is_there = servers[k].at && (number >= NUMBERS ? number < MU_SERVER_CONNECTIONS : was_open[k][number]);
    expect(status == (servers[k].at ? MU_DONE : MU_USAGE), "a status of bytes that are given");
    expect(taken <= length && (is_there || taken == 0), "bytes taken that weren't given, or of nobody");
    expect(!(state & MU_SERVER_TAKES) || taken == length, "a connection that takes less than it said");
    if (taken == 0)
        expect_same(k, "a server changed by bytes that it didn't take");
}

static void give(uint32_t k, uint32_t number)
{
    size_t given = 9;
    uint32_t state = 0;
    give_room();
    see(k, states[0]);
    mu_server_state(&servers[k], number, &state);
    uint32_t status = mu_server_give(&servers[k], number, calls.room ? calls.out : NULL, calls.room, &given);
    expect(status == (servers[k].at ? MU_DONE : MU_USAGE), "a status of bytes that are asked for");
    told(given, "an answer behind its room");
    expect(given <= calls.room && (given > 0) == (calls.room > 0 && (state & MU_SERVER_GIVES)), "an answer that isn't there");
    if (given == 0)
        expect_same(k, "a server changed by giving nothing");
}

static void open_one(uint32_t k)
{
    uint32_t number = 9, status = mu_server_open(&servers[k], &number);
    expect((status == MU_USAGE) == (servers[k].at == NULL) && (status == MU_DONE || number == 0), "a connection of nothing");
    expect(status != MU_DONE || number >= NUMBERS || !is_open[k][number], "a number that an open connection has");
    if (status == MU_DONE && number < NUMBERS)
        is_open[k][number] = was_open[k][number] = 1;
    else if (status == MU_DONE) /* all numbers below are open, or wait for what clients sent that have gone */
        mu_server_close(&servers[k], number);
}

static void begin(uint32_t k)
{
    if (servers[k].at)
        return;
    memset(&servers[k], below(256) & 0xff, sizeof servers[k]);
    uint32_t replicas = below(4) ? 1 + below(5) : any_number(8), status = mu_server_new(&servers[k], replicas);
    expect((status == MU_DONE) == (servers[k].at != NULL) && (status != MU_DONE || (replicas > 0 && replicas < 8)), "a new server");
    memset(is_open[k], 0, sizeof is_open[k]);
    memset(was_open[k], 0, sizeof was_open[k]);
}

static void close_one(uint32_t k, uint32_t number)
{
    see(k, states[0]);
    mu_server_close(&servers[k], number);
    if (number < NUMBERS && is_open[k][number])
        is_open[k][number] = 0;
    else
        expect_same(k, "a server changed by closing nothing");
}

void play_server(void)
{
    uint32_t k = below(SERVERS), number = any_number(NUMBERS - 1), status, waits = 9;
    switch (below(16)) {
    case 0:
        if (below(64) == 0)
            mu_server_free(&servers[k]);
        break;
    case 1: begin(k); break;
    case 2: open_one(k); break;
    case 3: close_one(k, number); break;
    case 4: case 5: case 6: case 7: take(k, number); break;
    case 8: case 9: case 10: case 11: give(k, number); break;
    case 12:
        status = mu_server_state(&servers[k], number, &waits);
        expect(waits <= WHOLE && (servers[k].at || (status == MU_USAGE && waits == 0)), "a state of a connection");
        break;
    default:
        status = mu_server_play(&servers[k], below(200), &waits);
        expect(waits <= 1 && (status == MU_USAGE) == (servers[k].at == NULL), "rounds of a server");
    }
}

void end_servers(void)
{
    for (uint32_t k = 0; k < SERVERS; k++)
        mu_server_free(&servers[k]);
}
