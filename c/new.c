/* The calls of mu.h and mu_server.h that begin something. The proved ones put it in place of what a handle has;
 * these make a handle of whatever bytes are there first, so they read none of them. */
#include "mu_server.h"

uint32_t mu_judge_renew(mu_judge *judge, const void *job, size_t length, void *out, size_t room,
                        size_t *taken);
uint32_t mu_engine_renew(mu_engine *engine, uint32_t replicas, uint32_t places, uint32_t steps,
                         uint32_t commands);
uint32_t mu_replica_renew(mu_replica *replica, const void *job, size_t length, uint32_t id,
                          uint32_t eager, uint32_t room);
uint32_t mu_server_renew(mu_server *server, uint32_t replicas);

uint32_t mu_judge_new(mu_judge *judge, const void *job, size_t length, void *out, size_t room,
                      size_t *taken)
{
    judge->at = NULL;
    return mu_judge_renew(judge, job, length, out, room, taken);
}

uint32_t mu_engine_new(mu_engine *engine, uint32_t replicas, uint32_t places, uint32_t steps,
                       uint32_t commands)
{
    engine->at = NULL;
    return mu_engine_renew(engine, replicas, places, steps, commands);
}

uint32_t mu_replica_new(mu_replica *replica, const void *job, size_t length, uint32_t id,
                        uint32_t eager, uint32_t room)
{
    replica->at = NULL;
    return mu_replica_renew(replica, job, length, id, eager, room);
}

uint32_t mu_server_new(mu_server *server, uint32_t replicas)
{
    server->at = NULL;
    return mu_server_renew(server, replicas);
}
