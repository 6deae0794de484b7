/* mu.hpp: the judge, the engine and the replica of mu.h as C++17 objects, each of which owns what it holds. It may
 * be moved and not copied; what was moved from holds nothing, and every call on it is refused.
 *
 *     c++ -std=c++17 -Ic yours.cc out/libmu.a -o yours */
#ifndef MU_HPP
#define MU_HPP

#include "mu.h"

#include <cstdint>
#include <optional>
#include <stdexcept>
#include <string>
#include <string_view>
#include <utility>

namespace mu {

/* What a status of mu.h is called there. */
inline const char *name_of(std::uint32_t status)
{
    switch (status) {
    case MU_DONE: return "MU_DONE";
    case MU_USAGE: return "MU_USAGE";
    case MU_REFUSED: return "MU_REFUSED";
    case MU_UNFINISHED: return "MU_UNFINISHED";
    case MU_NO_MEMORY: return "MU_NO_MEMORY";
    case MU_ILLEGAL: return "MU_ILLEGAL";
    case MU_TOO_LONG: return "MU_TOO_LONG";
    case MU_FULL: return "MU_FULL";
    case MU_STOPPED: return "MU_STOPPED";
    case MU_MIXED: return "MU_MIXED";
    case MU_ENDED: return "MU_ENDED";
    case MU_STRAY: return "MU_STRAY";
    case MU_BEYOND: return "MU_BEYOND";
    case MU_NO_SUCH_CLIENT: return "MU_NO_SUCH_CLIENT";
    case MU_NO_SUCH_REPLICA: return "MU_NO_SUCH_REPLICA";
    case MU_NO_SUCH_ROW: return "MU_NO_SUCH_ROW";
    case MU_OLD_ROW: return "MU_OLD_ROW";
    case MU_EMPTY: return "MU_EMPTY";
    default: return "a status that mu.h doesn't have";
    }
}

/* A call was refused, and nothing has changed. */
struct Refused : std::runtime_error {
    explicit Refused(std::uint32_t why, const std::string &told = {})
        : std::runtime_error(name_of(why) + (told.empty() ? told : ": " + told)), status(why) {}
    std::uint32_t status;
};

/* Throws what was refused. */
inline void accept(std::uint32_t status, const std::string &told = {})
{
    if (status != MU_DONE)
        throw Refused(status, told);
}

/* Room for what is long: a text that has too little is made twice. */
constexpr std::size_t MANY_BYTES = std::size_t{1} << 20, MOST_TEXT = 64;

/* The status and the whole text of a call, which is made again if the first room was too small. */
template <typename Call> std::pair<std::uint32_t, std::string> told(Call call, std::size_t room = 4096)
{
    std::string text(room, '\0');
    for (;;) {
        std::size_t taken = 0;
        const std::uint32_t status = call(text.data(), text.size(), &taken);
        const bool is_whole = taken <= text.size();
        text.resize(taken);
        if (is_whole)
            return {status, std::move(text)};
    }
}

/* What is expected in place of a line that is no command, as `mu why` says it of a job with that line; else nothing. */
inline std::string expected_of(std::string_view line)
{
    const std::string job = "mu 1\nreplicas 1\nring 8\nbudget 1\nclient 0\n" + std::string(line) + "\nend\n";
    const auto text = told([&](char *out, std::size_t room, std::size_t *taken) {
        return mu_answer(MU_WHY, job.data(), job.size(), out, room, taken);
    }).second;
    const std::size_t at = text.rfind("refused line 6 ", 0) == 0 ? text.find("expected: ") : text.npos;
    return at == text.npos ? "" : text.substr(at, text.find('\n', at) - at);
}

/* Throws what was refused of a command. */
inline void accept_line(std::uint32_t status, std::string_view line)
{
    accept(status, status == MU_REFUSED ? expected_of(line) : std::string());
}

/* A reply of the store: done, none, or a text that the key has, had or keeps. */
struct Reply {
    std::uint32_t kind; /* of mu_reply */
    std::string text;
};

class Engine {
public:
    explicit Engine(std::uint32_t replicas, std::uint32_t places = 128, std::uint32_t steps = 131071,
                    std::uint32_t commands = 100)
    {
        accept(mu_engine_new(&held, replicas, places, steps, commands));
    }
    ~Engine() { mu_engine_free(&held); }
    Engine(Engine &&other) noexcept : held(std::exchange(other.held, mu_engine MU_NO_ENGINE)) {}
    Engine &operator=(Engine &&other) noexcept
    {
        std::swap(held, other.held);
        return *this;
    }

    /* Takes the next command of a client: its row. */
    std::uint64_t submit(std::uint32_t client, std::string_view line)
    {
        std::uint64_t row = 0;
        accept_line(mu_engine_submit(&held, client, line.data(), line.size(), &row), line);
        return row;
    }
    void round() { accept(mu_engine_round(&held)); }
    void stop(std::uint32_t replica) { accept(mu_engine_stop(&held, replica)); }
    void pause(std::uint32_t replica, std::uint32_t rounds) { accept(mu_engine_pause(&held, replica, rounds)); }
    void back(std::uint32_t replica) { accept(mu_engine_back(&held, replica)); }

    /* The reply to a row, if it is there. */
    std::optional<Reply> reply(std::uint64_t row) { return reply_in_time(row, 0); }
    /* The same once it is there, after at most so many rounds. */
    std::optional<Reply> reply_in_time(std::uint64_t row, std::uint32_t rounds = 10000)
    {
        std::uint32_t kind = 0;
        const auto call = [&](char *out, std::size_t room, std::size_t *taken) {
            return mu_engine_until(&held, row, rounds, &kind, out, room, taken);
        };
        auto [status, text] = told(call, MOST_TEXT);
        if (status == MU_UNFINISHED)
            return std::nullopt;
        accept(status);
        return Reply{kind, std::move(text)};
    }
    /* Where it stands, and what holds a replica. */
    mu_state state()
    {
        mu_state state;
        accept(mu_engine_state(&held, &state));
        return state;
    }
    mu_hold hold(std::uint32_t replica)
    {
        mu_hold hold;
        accept(mu_engine_hold(&held, replica, &hold));
        return hold;
    }
    /* The commands and the events so far of the era under way, as a trace. */
    std::string trace()
    {
        const auto call = [&](char *out, std::size_t room, std::size_t *taken) {
            return mu_engine_trace(&held, out, room, taken);
        };
        auto [status, text] = told(call, MANY_BYTES);
        accept(status);
        return std::move(text);
    }

private:
    mu_engine held;
};

class Judge {
public:
    explicit Judge(std::string_view job)
    {
        auto [status, why] = told([&](char *out, std::size_t room, std::size_t *taken) {
            return mu_judge_new(&held, job.data(), job.size(), out, room, taken);
        });
        accept(status, why);
    }
    ~Judge() { mu_judge_free(&held); }
    Judge(Judge &&other) noexcept : held(std::exchange(other.held, mu_judge MU_NO_JUDGE)) {}
    Judge &operator=(Judge &&other) noexcept
    {
        std::swap(held, other.held);
        return *this;
    }

    /* MU_DONE if the list is legal with this line, MU_ILLEGAL, or MU_REFUSED if it is no event. */
    std::uint32_t take(std::string_view line)
    {
        const std::uint32_t status = mu_judge_take(&held, line.data(), line.size());
        if (status == MU_USAGE)
            throw Refused(status);
        return status;
    }
    /* What `mu why` says of the list so far, and its status. */
    std::pair<std::uint32_t, std::string> why()
    {
        return told([&](char *out, std::size_t room, std::size_t *taken) {
            return mu_judge_why(&held, out, room, taken);
        });
    }

private:
    mu_judge held;
};

/* How the events of a replica have ended: if it was outrun, by which region and position it saw that. */
struct End {
    std::uint32_t how; /* of mu_end */
    std::uint32_t region, position;
};

/* One replica that makes no access itself. */
class Replica {
public:
    Replica(std::string_view job, std::uint32_t id, bool eager, std::uint32_t room = 0)
    {
        accept(mu_replica_new(&held, job.data(), job.size(), id, eager, room));
    }
    ~Replica() { mu_replica_free(&held); }
    Replica(Replica &&other) noexcept : held(std::exchange(other.held, mu_replica MU_NO_REPLICA)) {}
    Replica &operator=(Replica &&other) noexcept
    {
        std::swap(held, other.held);
        return *this;
    }

    /* How many hosts there are, and how many words each has. */
    std::pair<std::uint32_t, std::uint32_t> shape()
    {
        std::uint32_t hosts = 0, words = 0;
        accept(mu_replica_shape(&held, &hosts, &words));
        return {hosts, words};
    }
    /* The access that it wants now; none if it is halted. */
    std::optional<mu_operation> next()
    {
        mu_operation operation;
        return unless_ended(mu_replica_next(&held, &operation), operation);
    }
    /* Takes the word that the access found. */
    void take(std::uint64_t found) { accept(mu_replica_take(&held, found)); }
    /* The same, and then the next access. */
    std::optional<mu_operation> take_next(std::uint64_t found)
    {
        mu_operation operation;
        return unless_ended(mu_replica_take_next(&held, found, &operation), operation);
    }
    /* Appends the next command of a client: its row. */
    std::uint32_t append(std::uint32_t client, std::string_view line)
    {
        std::uint32_t row = 0;
        accept_line(mu_replica_append(&held, client, line.data(), line.size(), &row), line);
        return row;
    }

    /* Its end, if its events have one. */
    std::optional<End> end()
    {
        End end{};
        const std::uint32_t status = mu_replica_end(&held, &end.how, &end.region, &end.position);
        if (status == MU_UNFINISHED)
            return std::nullopt;
        accept(status);
        return end;
    }
    /* The reply of its own store to a row, if it is there. */
    std::optional<Reply> reply(std::uint32_t row)
    {
        std::uint32_t kind = 0;
        const auto call = [&](char *out, std::size_t room, std::size_t *taken) {
            return mu_replica_reply(&held, row, &kind, out, room, taken);
        };
        auto [status, text] = told(call, MOST_TEXT);
        if (status == MU_UNFINISHED)
            return std::nullopt;
        accept(status);
        return Reply{kind, std::move(text)};
    }
    /* Its newest event, as a line of a trace; empty if it has none. */
    std::string event()
    {
        const auto call = [&](char *out, std::size_t room, std::size_t *taken) {
            return mu_replica_event(&held, out, room, taken);
        };
        auto [status, text] = told(call, 192);
        if (status != MU_UNFINISHED)
            accept(status);
        return std::move(text);
    }

private:
    static std::optional<mu_operation> unless_ended(std::uint32_t status, const mu_operation &operation)
    {
        if (status == MU_ENDED)
            return std::nullopt;
        accept(status);
        return operation;
    }
    mu_replica held;
};

} // namespace mu

#endif
