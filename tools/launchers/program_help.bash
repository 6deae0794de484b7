# What the programs say of themselves; tools/launchers/run_program and tools/launchers/run_c_program read this file, and have set name and top.

tell_mu() {
    cat <<'END'
mu runs jobs of a replication engine, and judges lists of its events. README.md begins with an example.

    ./mu COMMAND < FILE        or: ./mu COMMAND FILE

A job, as examples/put-and-get.job, is read by
    replay     runs it in one thread, the replicas in turns, and reports logs, commits and replies
    eager      the same with replicas as those of run, which read on, write ahead and ask again
    run        the same with a thread for each replica
    trace      prints the job and each event of its replay: a trace
    eager trace    the same of the replay by such replicas
    enough     runs nothing: by which step of its replay all is committed, and finished, and whether the budget is shown to be enough
    live K     a run, and then K readers of the longest log on threads of their own (K from 1 to 4)
    desk       a run whose clients send their commands from threads
    book       takes commands for orders, and prints the trades and what rests
A trace, as examples/put-and-get.trace, is read by
    check      judges its events: legal, or which event breaks the list
    why        the same, and in words which rule isn't met; of a refused job or trace what is expected there
    tell       reports what a legal list comes to
    show N     what holds after its first N events
    attest     judges it with lines of what clients saw: `got J`, `R told J = REPLY`
Lines are read one by one, and answered, by
    serve N    N replicas that run live (N from 1 to 7): `put a 5`, `client 1`, `stop 0`, `pause 1 300`
Nothing is read by
    bulk N     runs a stated job of N commands, and sums up

./mu_draw draws a trace. The exit status is S of the last line, `status S`: 0 if all commands are in
the log, 3 if some aren't; 1 for other words than these, 2 for a refused input, 7 for an illegal list
(docs/FORMATS.md, Statuses, has all).
END
}

tell_mu_draw() {
    cat <<'END'
mu_draw draws a trace as SVG: who owns each region, who leads, puts, commits, ends.

    ./mu_draw < FILE > picture.svg        or: ./mu_draw FILE > picture.svg

    mu_draw                    all steps, as far as a page has room
    mu_draw FIRST LAST         the steps from FIRST to LAST, counted from 0
    mu_draw brief              asks, grants, commits, whom each names, and ends alone
    mu_draw brief FIRST LAST   of these steps

`./mu trace < JOB` prints the trace of a job, as examples/put-and-get.trace; docs/FORMATS.md (The picture)
says what each mark stands for.
END
}

tell_mu_processes() {
    cat <<'END'
mu_processes runs a job with a process for each replica, kills and stops some, and reports as ./mu run does.

    ./mu_processes JOB [WORDS]          JOB is a file, or - for what comes in

    kill R@WHEN       kill -9 of replica R, or of `leader`: R@1500 after 1.5 ms, R@#20 once 20 entries are decided
    stop R@WHEN+US    it is stopped (SIGSTOP), and goes on US microseconds later
    trace FILE        the events of all in one order, for ./mu check, why, tell and ./mu_draw
    moments           who asked, was granted, committed, when: lines on standard error, in microseconds
    nap US            nobody naps longer than US microseconds, 1 to 8192; else naps go by how long cycles take
    file FILE         the words are in FILE, which other processes may map
    wait              with `file`: nobody is started here; start each yourself, from any terminal, by

    ./mu_processes replica ID FILE
    ./mu_processes serve N [WORDS]      N replicas that run live: lines are read one by one, and answered:
                                        put a 5, kill leader, stop 1, continue 1

You may kill -9 any replica's process yourself, too. While fewer than half are gone, the others finish.

    ./mu_processes examples/put-and-get.job kill leader@#1 moments

The exit status is S of the last line, `status S`: 0 if all commands are in the log, 3 if some aren't; 1 for words
that are none, 2 for a refused job, 70 if no run came about. docs/PROCESSES.md says what is proved of it.
END
}

tell_mu_fabric() {
    cat <<'END'
mu_fabric runs replicas over a network by libfabric: on each host a memory, which has its words, and a replica.

    ./mu_fabric memory ID HOSTS [provider NAME]
    ./mu_fabric replica ID HOSTS JOB [provider NAME] [limit MS] [linger MS] [nap US] [moments]
    ./mu_fabric JOB [WORDS]             a memory and a replica for each host, all on this machine

HOSTS is a file with a line `ID NODE SERVICE` a host, as `0 10.0.0.1 7470`. Whoever reaches these ports can write any
word: use a network of your own.

    kill, stop, trace, moments, nap     as for ./mu_processes: on this machine
    lose H@WHEN       kill -9 of the memory of host H
    provider NAME     of libfabric; else tcp;ofi_rxm. One that lacks an atomic operation is refused
    limit MS          how long an access may take, else 2000: one that gets no answer ends its replica, `unanswered`
    linger MS         how long a replica of its own answers others after it has finished, else 5000

    ./mu_fabric examples/put-and-get.job kill leader@#1 trace run.trace

The exit status is as that of ./mu_processes. docs/PROCESSES.md says what is proved, and what a dead memory does.
END
}

tell_mu_server() {
    cat <<'END'
mu_server serves clients of Redis: redis-cli, redis-benchmark, python3-redis, hiredis. Each command goes through the
log of replicas of Mu, all in this process.

    ./mu_server [PORT] [--bind ADDRESS] [--replicas N]

    PORT               6379 if none is named; 0 takes one that is free
    --bind ADDRESS     127.0.0.1 if none is named: only this machine reaches it. There is no password
    --replicas N       1 to 7, else 3: with N of them it goes on while fewer than half are stopped

    redis-cli SET a 5              in another terminal; also GET, GETSET, DEL, EXISTS, STRLEN, PING, INFO
    redis-cli MU STATUS            which replicas run, and which leads
    redis-cli MU STOP 0            stops a replica, the leader too; MU BACK 0 calls it back
    redis-cli MU PAUSE 0 3000      for so many rounds
    redis-cli MU CAS a 5 6         sets 6 if a is 5

SIGTERM, or Ctrl-C, ends it once what it took is answered. Nothing is kept then. Keys have at most 24 bytes, values 64;
docs/SERVER.md has all limits, and what is proved.
END
}

# Which program is run now: by the marks that ./prove and a first build leave.
program_now() {
    mark=$top/out/bin/proved.sum
    if [ -x "$top/out/bin/$name" ] && [ -f "$mark" ] && ! is_changed; then
        echo "out/bin/$name, which ./prove proved"
        return
    fi
    mark=$top/out/unproved/$name.sum
    if [ -x "$top/out/unproved/$name" ] && [ -f "$mark" ] && ! is_changed; then
        echo "out/unproved/$name, built without proofs, with checks: 100 to 400 times slower than what ./prove leaves"
    else
        echo "none yet, or one of other sources: the next command builds or finds it"
    fi
}

# The commit, or else the checksum of the sources, as ./prove and a first build note it.
sources_now() {
    git -C "$top" describe --always --dirty 2>/dev/null ||
        python3 -c 'import sys; sys.path.insert(0, sys.argv[1]); import programs; print(programs.sources_sum()[:12])' "$tools"
}

tell_version() {
    echo "$name of the sources $(sources_now), for jobs, traces and reports of versions 1 and 2"
    echo "proved with: $(grep -o -m 1 'rattle-kit-[^`]*' "$top/README.md")"
    echo "rt in PATH:  $(rt version 2>/dev/null || echo 'not found')"
    echo "program:     $(program_now)"
}

case $1 in
--version) tell_version ;;
*) "tell_$name" ;;
esac
