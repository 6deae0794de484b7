// Uses mu.hpp: an engine over a stop of its leader, moves, refusals, a judge, and a replica alone.
//
//     c++ -std=c++17 -Ic c/uses.cc out/libmu.a -o uses && ./uses
#include "mu.hpp"

#include <cstdio>
#include <type_traits>
#include <vector>

static int wrong;

static void expect(const char *what, bool holds)
{
    if (!holds) {
        std::printf("wrong: %s\n", what);
        wrong++;
    }
}

// The status of what a call throws; MU_DONE if it throws nothing.
template <typename Call> static std::uint32_t refusal(Call call)
{
    try {
        call();
    } catch (const mu::Refused &refused) {
        return refused.status;
    }
    return MU_DONE;
}

static_assert(!std::is_copy_constructible_v<mu::Engine> && !std::is_copy_assignable_v<mu::Engine>);
static_assert(std::is_nothrow_move_constructible_v<mu::Judge> && std::is_nothrow_move_assignable_v<mu::Judge>);

static void engines()
{
    mu::Engine engine(3, 64, 20000, 3);
    expect("a put", engine.reply_in_time(engine.submit(0, "put a 5"))->kind == MU_REPLY_DONE);
    engine.stop(0);
    mu::Engine moved(std::move(engine));
    expect("the one moved from", refusal([&] { engine.round(); }) == MU_EMPTY);
    const auto value = moved.reply_in_time(moved.submit(0, "get a"));
    expect("a get of another leader", value && value->kind == MU_REPLY_VALUE && value->text == "5");
    expect("a stopped replica", refusal([&] { moved.stop(0); }) == MU_STOPPED);
    expect("no line", refusal([&] { moved.submit(0, std::string_view()); }) == MU_REFUSED);
    try {
        moved.submit(0, "put a");
    } catch (const mu::Refused &refused) {
        expect("what is expected", std::string(refused.what()).rfind("MU_REFUSED: expected: put KEY TEXT, ", 0) == 0);
    }
    expect("no row", refusal([&] { moved.reply(7); }) == MU_NO_SUCH_ROW);
    expect("who is held", moved.hold(0).stopped == 1 && moved.state().free == 2 && moved.state().leader == 1);
    moved.back(0);
    expect("nobody", moved.hold(0).stopped == 0 && moved.state().commands == 2);
    expect("its trace", moved.trace().compare(0, 5, "mu 2\n") == 0);
    moved = mu::Engine(1, 8, 999, 1);
    expect("another in its place", moved.submit(15, "get a") == 0);
    expect("as many as may be", refusal([&] { moved.submit(0, "get a"); }) == MU_FULL);
    expect("no engine", refusal([] { mu::Engine(8); }) == MU_BEYOND);
    try {
        mu::Engine none(0);
    } catch (const mu::Refused &refused) {
        expect("its name", std::string(refused.what()) == "MU_BEYOND");
    }
}

static void judges()
{
    mu::Judge judge("mu 1\nreplicas 1\nring 8\nbudget 99\nend\n");
    expect("an ask", judge.take("0 ask 0 = done") == MU_DONE);
    expect("no event", judge.take(std::string_view()) == MU_REFUSED);
    expect("a grant without the close", judge.take("0 grant 0 = done") == MU_ILLEGAL);
    expect("why", judge.why().second.compare(0, 20, "illegal 1 at line 7\n") == 0);
    mu::Judge other(std::move(judge));
    expect("the one moved from", refusal([&] { judge.take("0 beat = done"); }) == MU_USAGE);
    expect("the other", other.why().first == MU_ILLEGAL);
    try {
        mu::Judge none("mu 3\n");
        expect("no judge", false);
    } catch (const mu::Refused &refused) {
        expect("why there is none", std::string(refused.what()) == "MU_REFUSED: refused line 1 cause 1\n");
    }
}

// The word as an access leaves it.
static std::uint64_t left(std::uint64_t found, const mu_operation &o)
{
    switch (o.kind) {
    case MU_STORE: case MU_SWAP: return o.value;
    case MU_RAISE: return found < o.value ? o.value : found;
    case MU_ADD: return found + o.value;
    case MU_SET_BITS: return found | o.value;
    case MU_COMPARE: return found == o.expected ? o.value : found;
    default: return found;
    }
}

static void replicas()
{
    mu::Replica replica("mu 1\nreplicas 1\nring 8\nbudget 9999\nclient 0\nput a 5\nend\n", 0, false, 2);
    const auto shape = replica.shape();
    expect("one host", shape.first == 1 && shape.second > 8);
    std::vector<std::uint64_t> words(shape.second);
    words[0] = MU_FIRST_FENCE;
    expect("no event", replica.event().empty() && !replica.end());
    expect("no access", refusal([&] { replica.take(0); }) == MU_USAGE);
    auto operation = replica.next();
    expect("its row", replica.append(0, "get a") == 1);
    expect("no room", refusal([&] { replica.append(0, "get a"); }) == MU_FULL);
    mu::Replica moved(std::move(replica));
    expect("the one moved from", refusal([&] { replica.next(); }) == MU_USAGE);
    while (operation && !moved.reply(1)) {
        std::uint64_t &word = words[operation->place];
        const std::uint64_t found = word;
        word = left(found, *operation);
        moved.take(found);
        expect("an event", moved.event().compare(0, 2, "0 ") == 0);
        operation = moved.next();
    }
    const auto value = moved.reply(1);
    expect("its reply", value && value->kind == MU_REPLY_VALUE && value->text == "5");
    expect("no replica", refusal([] { mu::Replica("mu 3\n", 0, false); }) == MU_REFUSED);
}

int main()
{
    engines();
    replicas();
    judges();
    std::puts(wrong ? "mu.hpp is not as it says" : "mu.hpp is as it says");
    return wrong ? 1 : 0;
}
