#!/bin/sh
# Plays sessions, halls of rooms and talks of new numbers beside each other for so many hours, each with a judge and a limit of memory.
# tests/hostile/soak.py says how each kind is judged.
#
#   tests/soak.sh HOURS [KIND..]
#   tests/soak.sh again KIND SEED WORKER PLACE     plays one case anew, by the numbers that a fault is told with
#
# SEED sets the seed, which is printed. PROGRAM and PM_LIVE name the programs, GEZHUFET_PREFIX where the C library is, MEMORY the limit
# of memory in bytes, JOBS how many run side by side, FINDS the folder in which an input is kept at which a run failed.
# For two hours of all kinds: ./pm build, ./pm build live and ./pm lib, then `nice tests/soak.sh 2 >soak.log`. What is not built is left
# out with a word. The counts are told every ten minutes. The last line is 'N passed, M failed', and the status is 1 where a run failed.
exec python3 -B "$(dirname "$0")/hostile/soak.py" "$@"
