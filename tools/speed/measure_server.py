#!/usr/bin/env python3
"""Measures ./mu_server beside redis-server by redis-benchmark, in one run: SET and GET at 1, 16 and 50 connections, with pipelines
of 1 and 16.

    tools/speed/measure_server.py PROGRAM [TIMES]     PROGRAM is out/c/mu_server, or another build; TIMES is 3 if it isn't named

A row for each: requests a second of the median of the runs, the least and the greatest, and p50 and p99 in milliseconds; of Mu, of
redis-server without a file, and the share of the first. If etcd and etcdctl are there, a line tells how many writes a second
three members of etcd take, whose files are in memory, by its own `check perf`: that takes a minute. Take them when the machine
does nothing else.
"""
import contextlib
import csv
import os
import re
import shutil
import statistics
import subprocess
import sys
import tempfile
import time

import folders
from beginning import begin
from try_server import Server

CONNECTIONS, PIPELINES = (1, 16, 50), (1, 16)
# How many requests a run makes, by the pipeline: about a second's.
REQUESTS = {1: 20_000, 16: 60_000}
# Members of etcd, and how many seconds they may take to begin.
MEMBERS, ELECTION = 3, 3


def benchmark(port, connections, pipeline):
    """Of SET and GET: requests a second, p50 and p99."""
    words = ["redis-benchmark", "-p", str(port), "-t", "set,get", "-c", str(connections), "-P", str(pipeline), "-r", "1000",
             "-n", str(REQUESTS[pipeline] // (4 if connections == 1 else 1)), "--csv"]
    rows = csv.reader(subprocess.run(words, capture_output=True, text=True, check=True).stdout.splitlines())
    return {row[0]: (float(row[1]), float(row[4]), float(row[6])) for row in rows if row[0] in ("SET", "GET")}


@contextlib.contextmanager
def etcd(base):
    """Three members of etcd at ports from this one on, with files in memory: the addresses for clients."""
    with tempfile.TemporaryDirectory(prefix="measured-etcd-", dir="/dev/shm") as room:
        clients, peers = ([f"http://127.0.0.1:{base + at + k}" for k in range(MEMBERS)] for at in (0, MEMBERS))
        group, members = ",".join(f"m{k}={peer}" for k, peer in enumerate(peers)), []
        try:
            for k in range(MEMBERS):
                words = ["etcd", "--name", f"m{k}", "--data-dir", f"{room}/m{k}", "--listen-client-urls", clients[k],
                         "--advertise-client-urls", clients[k], "--listen-peer-urls", peers[k], "--initial-advertise-peer-urls",
                         peers[k], "--initial-cluster", group, "--log-level", "error"]
                members.append(subprocess.Popen(words, stdout=subprocess.DEVNULL, stderr=subprocess.DEVNULL))
            time.sleep(ELECTION)
            yield ",".join(clients)
        finally:
            for member in members:
                member.terminate()
            for member in members:
                member.wait()


def etcd_writes(base):
    """What etcd's own measure tells of three members: writes a second, and the slowest request; None if it isn't there."""
    if not shutil.which("etcd") or not shutil.which("etcdctl"):
        return None
    with etcd(base) as clients:
        words = ["etcdctl", "--endpoints", clients, "check", "perf", "--load", "xl"]
        said = subprocess.run(words, env={**os.environ, "ETCDCTL_API": "3"}, capture_output=True, text=True, check=False).stdout
    found = [re.search(wanted, said) for wanted in (r"Throughput\D+(\d+)", r"Slowest\D+([\d.]+)")]
    return tuple(it[1] if it else "?" for it in found)


def told(runs):
    """A cell of the table."""
    rates = sorted(run[0] for run in runs)
    return (f"{statistics.median(rates):,.0f} ({rates[0]:,.0f} to {rates[-1]:,.0f}); {statistics.median(run[1] for run in runs):.2f}; "
            f"{statistics.median(run[2] for run in runs):.2f}")


def main():
    begin(__doc__)
    if len(sys.argv) < 2 or not shutil.which("redis-benchmark") or not shutil.which("redis-server"):
        print(__doc__.split("\n\n")[1])
        return 2
    times, kept = int(sys.argv[2]) if len(sys.argv) > 2 else 3, {}
    with tempfile.TemporaryDirectory(prefix="measured-") as room, Server(os.path.abspath(sys.argv[1])) as server:
        words = ["redis-server", "--port", "0", "--save", "", "--appendonly", "no", "--bind", "127.0.0.1"]
        words[2] = str(server.port + 1 if server.port < 65_000 else server.port - 1)
        redis = subprocess.Popen(words, cwd=room, stdout=subprocess.DEVNULL)
        try:
            time.sleep(0.5)
            for _ in range(times):
                for connections in CONNECTIONS:
                    for pipeline in PIPELINES:
                        for name, port in (("mu", server.port), ("redis", int(words[2]))):
                            for what, run in benchmark(port, connections, pipeline).items():
                                kept.setdefault((what, connections, pipeline, name), []).append(run)
        finally:
            redis.terminate()
            redis.wait()
    with open("/proc/cpuinfo", encoding="ascii") as read:
        print(re.search(r"model name\s*: (.*)", read.read())[1], os.getloadavg())
    print("| | Mu, 3 replicas: requests a second (least to most); p50; p99 in ms | redis-server | share |\n|---|---|---|---|")
    for what, connections, pipeline in [(w, c, p) for w in ("SET", "GET") for c in CONNECTIONS for p in PIPELINES]:
        mu, redis = (kept[what, connections, pipeline, name] for name in ("mu", "redis"))
        share = statistics.median(run[0] for run in mu) / statistics.median(run[0] for run in redis)
        print(f"| {what}, {connections} connections, pipelines of {pipeline} | {told(mu)} | {told(redis)} | {share:.2f} |")
    writes = etcd_writes(int(words[2]) + 10)
    print(f"etcd, 3 members: {writes[0]} writes a second, the slowest took {writes[1]} s" if writes else "etcd: not installed")
    return 0


if __name__ == "__main__":
    sys.exit(main())
