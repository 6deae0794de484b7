#!/usr/bin/env bash
# Runs the program mu with the words that follow, as in: ./mu replay < examples/put-and-get.job
exec "$(dirname "$(readlink -f "${BASH_SOURCE[0]}")")/tools/launchers/run_program" mu "$@"
