#!/bin/sh
# Use: ./tables.sh [FILE]
# Prints for each class and method of the class text FILE (without it of the sample) which fields the method reads (R), only adds to (A),
# writes (W) or leaves alone (N), and which methods of the class it may run beside (y). Proves and builds the program where that is not
# done yet.
# Ends with 0; with 1 where the text is refused or a proof fails; with 2 where a file can't be read, rt is missing, or there are more arguments.
set -eu
here=$(dirname "$0")
. "$here/host/scripts/program.sh"
take_words 1 "$@"
lend "${1:-$here/samples/lanes.txt}"
cd "$here"
prove tables
crates/tables/out/tables < "$folder/lib.txt" > "$folder/printed"
stop_if_refused "$(head -n 1 "$folder/printed")"
cat "$folder/printed"
