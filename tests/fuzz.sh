#!/bin/sh
# Plays session files, or talks of the live authority, with random changes for so many seconds. tests/hostile/fuzz.py says what is
# changed and how a run is judged.
#
#   tests/fuzz.sh SECONDS [WORD..]
#   tests/fuzz.sh SECONDS live
#
# SEED sets the seed, which is printed. PROGRAM and PM_LIVE name the programs, JOBS how many runs go side by side, FINDS the folder in
# which an input is kept at which a run failed.
# The last line is 'N passed, M failed', and the status is 1 where a run failed.
exec python3 -B "$(dirname "$0")/hostile/fuzz.py" "$@"
