#!/bin/sh
# Stands in the place of clang in a view of the toolchain, which recording.py makes: keeps the largest module that clang is given,
# and passes all on. A trial ends with the module that it would try, which has the word below. recording.py writes the three words in.
kept='@RECORD@/module.bc'
if [ -e module.bc ] && { [ ! -e "$kept" ] || [ "$(wc -c <module.bc)" -gt "$(wc -c <"$kept")" ]; }; then
  cp module.bc "$kept"
fi
case " $* " in *" @END@ "*) exit 1 ;; esac
exec '@CLANG@' "$@"
