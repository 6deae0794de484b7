#!/usr/bin/env python3
"""Runs a command of the built program over jobs, and checks each report by itself.

    tools/runs/run_trials.py [--command run] [--runs 200] [--program out/bin/mu] [JOBS]
    tools/runs/run_trials.py --speed [--program PROGRAM]

JOBS is a folder of jobs, examples/jobs if none is named. Files with the endings .args and .stdout
are passed over. Runs go round the jobs until there are as many as asked for. Of each run it is
checked that

  - it ends in time, and its exit status is the status that it prints, 0 or 3;
  - there is a log for each replica, and of any two logs one is a prefix of the other;
  - each entry is a batch of the job's commands, or the mark of a replica, each mark at most once;
  - each client's commands stand in order and once;
  - the replies are those of a key-value store over the commands of the longest log;
  - the status is 0 exactly if all commands are in the longest log.

Nothing of the program is used for this but its output. With --speed it compares how long `replay`
and `run` take for a job of four replicas and 800 commands, and on how many cores `run` was.
"""
import argparse
import os
import subprocess
import sys
import tempfile
import threading
import time

import folders
from operations import OPERATIONS, reply_to
from programs import TOP

LIMIT_SECONDS = 120
# What `run` is compared on.
SPEED_REPLICAS = 4
SPEED_COMMANDS = 800
SPEED_CLIENTS = 4
SPEED_RUNS = 5
SAMPLE_SECONDS = 0.005
WINDOW_SECONDS = 0.05


class Wrong(Exception):
    """What is wrong with a report."""


class Job:
    """A job as its text has it: no more than a report is checked by."""

    def __init__(self, text):
        self.clients = []
        self.batch = 1
        self.version = self.replicas = 0
        self.stops = {}
        self.ends = ['finished', 'stopped', 'budget', 'outrun']
        script = False
        for line in text.split('\n'):
            words = line.split(' ')
            if words[0] == 'mu':
                self.version = int(words[1])
            elif words[0] == 'replicas':
                self.replicas = int(words[1])
            elif words[0] == 'batch':
                self.batch = int(words[1])
            elif words[0] == 'script':
                script = True
            elif words[0] == 'stop' and script:
                self.stops[int(words[1])] = int(words[2])
            elif words[0] == 'client':
                self.clients.append([])
            elif words[0] in OPERATIONS and not script:
                self.clients[-1].append(line)

    def commands(self):
        return sum(map(len, self.clients))


class Log:
    """The log of one replica: its entries, its end and how many it committed."""

    def __init__(self, head):
        words = head.split(' ')
        if len(words) < 7 or words[0] != 'log' or words[2] != 'entries' or words[4] != 'commits':
            raise Wrong(f'no line of a log: {head}')
        self.replica, self.count, self.commits = int(words[1]), int(words[3]), int(words[5])
        self.end = words[6]
        self.entries = []

    def add(self, line):
        """Adds a line of an entry: a command or a mark."""
        place, what = line.split(' ', 1)
        place = int(place)
        if place == len(self.entries):
            self.entries.append([what])
        elif place == len(self.entries) - 1:
            self.entries[place].append(what)
        else:
            raise Wrong(f'position {place} after {len(self.entries)} entries')

    def commands(self):
        """The commands of all entries: client, number and text."""
        found = []
        for entry in self.entries:
            for what in entry:
                if not what.startswith('gone '):
                    found.append(command_of(what))
        return found


def command_of(what):
    name, text = what.split(' ', 1)
    client, number = name.split('.')
    return int(client), int(number), text


class Store:
    """A key-value store of its own, to answer commands."""

    def __init__(self):
        self.table = {}

    def reply(self, text):
        return reply_to(self.table, text)


class Report:
    """A report, cut into its parts."""

    def __init__(self, text, job):
        lines = text.split('\n')
        if lines[-1] != '':
            raise Wrong('the last line has no end')
        lines.pop()
        if lines.pop(0) != f'report {job.version}':
            raise Wrong('no report of this version')
        self.logs = []
        while lines and not lines[0].startswith('replies '):
            line = lines.pop(0)
            if line.startswith('log '):
                self.logs.append(Log(line))
            elif not self.logs:
                raise Wrong(f'an entry before the first log: {line}')
            else:
                self.logs[-1].add(line)
        if len(lines) < 2 or not lines[-1].startswith('status '):
            raise Wrong('no replies or no status')
        self.status = int(lines.pop().split(' ')[1])
        count = int(lines.pop(0).split(' ')[1])
        self.replies = lines
        if count != len(lines):
            raise Wrong(f'{count} replies are announced, {len(lines)} stand there')


def check_entries(job, log):
    """Each entry is a whole batch of one client, or a mark that came once."""
    gone = set()
    if len(log.entries) != log.count:
        raise Wrong(f'log {log.replica}: {log.count} entries are announced')
    for place, entry in enumerate(log.entries):
        if entry[0].startswith('gone '):
            replica = int(entry[0].split(' ')[1])
            if job.version < 2 or len(entry) > 1 or replica in gone or replica >= job.replicas:
                raise Wrong(f'log {log.replica}: no mark of its own at {place}')
            gone.add(replica)
            continue
        if any(what.startswith('gone ') for what in entry):
            raise Wrong(f'log {log.replica}: a mark in a batch at {place}')
        client, first, _ = command_of(entry[0])
        if (first - 1) % job.batch != 0 or client >= len(job.clients):
            raise Wrong(f'log {log.replica}: no batch begins at {place}')
        batch = job.clients[client][first - 1:first - 1 + job.batch]
        wanted = [f'{client}.{first + k} {text}' for k, text in enumerate(batch)]
        if entry != wanted:
            raise Wrong(f'log {log.replica}: no batch of the job at {place}: {entry}')


def check_sessions(job, log):
    """Each client's commands stand in order and once."""
    due = [1] * len(job.clients)
    for client, number, _ in log.commands():
        if number != due[client]:
            raise Wrong(f'log {log.replica}: command {client}.{number} where {due[client]} is due')
        due[client] += 1


def check_end(job, log):
    """A replica that stopped is one that the script stops; one that finished committed no more than
    it applied."""
    if log.end not in job.ends:
        raise Wrong(f'log {log.replica}: no end: {log.end}')
    if log.end == 'stopped' and log.replica not in job.stops:
        raise Wrong(f'log {log.replica}: stopped without a stop')
    if log.end == 'finished' and log.commits > log.count:
        raise Wrong(f'log {log.replica}: more commits than entries')


def check_report(job, text, status, tells=lambda log: True):
    """Raises `Wrong` if the report is none that the definitions permit. The replies are those of the longest log of a
    replica that tells them."""
    report = Report(text, job)
    if [log.replica for log in report.logs] != list(range(job.replicas)):
        raise Wrong('not a log for each replica, in order')
    for log in report.logs:
        check_entries(job, log)
        check_sessions(job, log)
        check_end(job, log)
    for one in report.logs:
        for other in report.logs:
            both = min(len(one.entries), len(other.entries))
            if one.entries[:both] != other.entries[:both]:
                raise Wrong(f'logs {one.replica} and {other.replica}: none begins the other')
    telling = [log for log in report.logs if tells(log)]
    longest = max(telling, key=lambda log: len(log.entries)).commands() if telling else []
    store = Store()
    replies = [f'{client}.{number} {store.reply(command)}' for client, number, command in longest]
    if replies != report.replies:
        raise Wrong('the replies are not those of a store')
    wanted = 0 if len(longest) == job.commands() else 3
    if (report.status, status) != (wanted, wanted):
        raise Wrong(f'status {report.status}, exit status {status}, where {wanted} is due')
    return report


def jobs_in(folder):
    names = sorted(n for n in os.listdir(folder) if not n.endswith(('.args', '.stdout')))
    return [os.path.join(folder, n) for n in names if os.path.isfile(os.path.join(folder, n))]


def trial(program, command, path):
    """One run of the program over one job; what is wrong with it, if anything."""
    with open(path, 'rb') as source:
        given = source.read()
    try:
        done = subprocess.run([program, command], input=given, capture_output=True,
                              timeout=LIMIT_SECONDS, check=False)
    except subprocess.TimeoutExpired:
        return None, f'no end within {LIMIT_SECONDS} seconds'
    try:
        report = check_report(Job(given.decode()), done.stdout.decode(), done.returncode)
    except (Wrong, ValueError, IndexError) as wrong:
        return None, str(wrong)
    return report, None


def trials(program, command, folder, runs):
    jobs = jobs_in(folder)
    statuses, orders, bad = {}, {}, 0
    for k in range(runs):
        path = jobs[k % len(jobs)]
        report, wrong = trial(program, command, path)
        if wrong:
            bad += 1
            print(f'{os.path.basename(path)}: {wrong}')
            continue
        statuses[report.status] = statuses.get(report.status, 0) + 1
        longest = max(report.logs, key=lambda log: len(log.entries)).entries
        orders.setdefault(path, set()).add(str(longest))
    counts = ', '.join(f'{n} with status {s}' for s, n in sorted(statuses.items()))
    several = sum(len(found) > 1 for found in orders.values())
    print(f'{command}: {runs} runs of {min(runs, len(jobs))} jobs: {counts or "none right"}; '
          f'{bad} wrong; {several} jobs gave several logs')
    return 1 if bad else 0


def speed_job():
    """A job of four replicas whose commands go round four clients and three keys."""
    lines = ['mu 1', f'replicas {SPEED_REPLICAS}', 'ring 64', 'budget 131071']
    for client in range(SPEED_CLIENTS):
        lines.append(f'client {client}')
        for j in range(client, SPEED_COMMANDS, SPEED_CLIENTS):
            lines.append(f'put key{j % 3} v{j}' if j % 2 == 0 else f'swap key{j % 3} v{j}')
    return '\n'.join(lines + ['end', '']).encode()


def busy_nanoseconds(pid):
    """How long all threads of a process were on a core so far."""
    total = 0
    try:
        for task in os.listdir(f'/proc/{pid}/task'):
            with open(f'/proc/{pid}/task/{task}/schedstat') as source:
                total += int(source.read().split()[0])
    except (OSError, ValueError, IndexError):
        pass
    return total


class Timed:
    """One run with its times: wall clock, processor, and the most cores within a short window."""

    def __init__(self, program, command, given):
        with tempfile.TemporaryFile() as source, tempfile.TemporaryFile() as sink:
            source.write(given)
            source.seek(0)
            begin = time.monotonic()
            child = subprocess.Popen([program, command], stdin=source, stdout=sink)
            samples = []
            watcher = threading.Thread(target=self.watch, args=(child.pid, samples))
            watcher.start()
            _, status, usage = os.wait4(child.pid, 0)
            self.wall = time.monotonic() - begin
            child.returncode = os.waitstatus_to_exitcode(status)
            watcher.join()
            sink.seek(0)
            self.report = check_report(Job(given.decode()), sink.read().decode(), child.returncode)
        self.user = usage.ru_utime
        self.system = usage.ru_stime
        self.cores = (self.user + self.system) / self.wall
        self.most = most_cores(samples)

    @staticmethod
    def watch(pid, samples):
        """Notes the busy time of the process until it has ended."""
        while os.path.exists(f'/proc/{pid}/task/{pid}'):
            busy = busy_nanoseconds(pid)
            if samples and busy < samples[-1][1]:
                return
            samples.append((time.monotonic(), busy))
            time.sleep(SAMPLE_SECONDS)


def most_cores(samples):
    """The most processor time per time within a window."""
    most = 0.0
    for k, (start, busy) in enumerate(samples):
        for later, more in samples[k + 1:]:
            if later - start >= WINDOW_SECONDS:
                most = max(most, (more - busy) / 1e9 / (later - start))
                break
    return most


def speed(program):
    given = speed_job()
    print(f'{SPEED_REPLICAS} replicas, {SPEED_COMMANDS} commands, {SPEED_RUNS} runs each, '
          f'{os.cpu_count()} cores; the quickest of each')
    for command in ('replay', 'run'):
        runs = [Timed(program, command, given) for _ in range(SPEED_RUNS)]
        best = min(runs, key=lambda run: run.wall)
        print(f'{command:7} wall {best.wall:.3f} s, user {best.user:.3f} s, system '
              f'{best.system:.3f} s; cores {best.cores:.2f} on the whole, '
              f'{max(run.most for run in runs):.2f} at most within {WINDOW_SECONDS} s; '
              f'status {best.report.status}')
    return 0


def main():
    parser = argparse.ArgumentParser(description='Trials of the built program, each report checked.')
    parser.add_argument('jobs', nargs='?', default=os.path.join(TOP, 'examples', 'jobs'))
    parser.add_argument('--command', default='run', choices=['run', 'replay'])
    parser.add_argument('--runs', type=int, default=200)
    parser.add_argument('--program', default=os.path.join(TOP, 'out/bin/mu'))
    parser.add_argument('--speed', action='store_true')
    args = parser.parse_args()
    if not os.access(args.program, os.X_OK):
        print(f'no program at {args.program}: ./prove builds it', file=sys.stderr)
        return 70
    if args.speed:
        return speed(args.program)
    return trials(args.program, args.command, args.jobs, args.runs)


if __name__ == '__main__':
    sys.exit(main())
