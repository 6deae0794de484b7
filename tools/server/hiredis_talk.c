/* Talks to a server by hiredis: hiredis_talk PORT. Prints `N right`, or what is wrong. */
#include <hiredis/hiredis.h>
#include <stdio.h>
#include <stdlib.h>
#include <string.h>

static int right;

static void expect(redisReply *reply, int type, const char *text)
{
    if (reply == NULL || reply->type != type || (text && strcmp(reply->str, text) != 0)) {
        printf("%s: type %d, not %d\n", text ? text : "no text", reply ? reply->type : -1, type);
        exit(1);
    }
    right++;
    freeReplyObject(reply);
}

int main(int words, char **word)
{
    enum { PIPELINE = 200 };
    redisContext *context = redisConnect("127.0.0.1", words > 1 ? atoi(word[1]) : 6379);
    char digits[16];
    if (context == NULL || context->err) {
        printf("no connection\n");
        return 1;
    }
    expect(redisCommand(context, "PING"), REDIS_REPLY_STATUS, "PONG");
    expect(redisCommand(context, "DEL hi"), REDIS_REPLY_INTEGER, NULL);
    expect(redisCommand(context, "GET hi"), REDIS_REPLY_NIL, NULL);
    expect(redisCommand(context, "SET hi %b", "a b", (size_t)3), REDIS_REPLY_STATUS, "OK");
    expect(redisCommand(context, "GET hi"), REDIS_REPLY_STRING, "a b");
    expect(redisCommand(context, "GETSET hi %s", "c"), REDIS_REPLY_STRING, "a b");
    expect(redisCommand(context, "STRLEN hi"), REDIS_REPLY_INTEGER, NULL);
    expect(redisCommand(context, "EXISTS hi"), REDIS_REPLY_INTEGER, NULL);
    expect(redisCommand(context, "SET hi there NX"), REDIS_REPLY_ERROR, NULL);
    expect(redisCommand(context, "MU STATUS"), REDIS_REPLY_STRING, NULL);
    for (int k = 0; k < PIPELINE; k++) {
        redisAppendCommand(context, "SET h%d %d", k % 7, k);
        redisAppendCommand(context, "GET h%d", k % 7);
    }
    for (int k = 0; k < PIPELINE; k++) {
        redisReply *reply = NULL;
        redisGetReply(context, (void **)&reply);
        expect(reply, REDIS_REPLY_STATUS, "OK");
        reply = NULL;
        redisGetReply(context, (void **)&reply);
        snprintf(digits, sizeof digits, "%d", k);
        expect(reply, REDIS_REPLY_STRING, digits);
    }
    redisFree(context);
    printf("%d right\n", right);
    return 0;
}
