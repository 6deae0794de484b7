#!/usr/bin/env python3
"""Measures how much processor time a command takes: that of all processes that it started and waited for.

    tools/proving/processor_time.py COMMAND ..     as tools/proving/processor_time.py ./prove, or .. rt ci --anew

Measure a whole run alone, with nothing else running: beside other work a processor does less in a second.
"""
import resource
import subprocess
import sys
import time


def main():
    if sys.argv[1:2] in ([], ["--help"]):
        print(__doc__.strip())
        return 0 if sys.argv[1:] else 1
    began = time.monotonic()
    status = subprocess.run(sys.argv[1:], check=False).returncode
    used = resource.getrusage(resource.RUSAGE_CHILDREN)
    print(f"processor_time: {(used.ru_utime + used.ru_stime) / 60:.1f} processor minutes, of which "
          f"{used.ru_stime / 60:.1f} in the system; {(time.monotonic() - began) / 60:.1f} by the clock; at most "
          f"{used.ru_maxrss / 1024:.0f} MB in one process; status {status}", file=sys.stderr)
    return status


if __name__ == "__main__":
    sys.exit(main())
