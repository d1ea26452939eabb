#!/bin/sh
# Plays a hall of sixteen rooms and eight people many times under `runrooms`. tests/hostile/halls.py says what the people do and how
# a run is judged.
#
#   tests/room-orders.sh [RUNS]        RUNS is 100 where it is absent
#
# PROGRAM names the program, JOBS how many runs go side by side.
# The last line is 'N passed, M failed', and the status is 1 where a run failed. How many orders came is said before.
exec python3 -B "$(dirname "$0")/hostile/halls.py" "$@"
