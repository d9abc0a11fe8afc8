#!/bin/sh
# Use: ./rehearse.sh [LIB [CALLS]]
# Plays the call lines of the file CALLS against the class text LIB, and prints what the machine answers to each, then every object
# with its values. Without CALLS the call lines are those of standard input; without LIB the text is the sample; without LIB and
# without calls from a file or a pipe the sample boards are played, each call beside its answer. Proves and builds the program where
# that is not done yet.
# Ends with 0; with 1 where the text is refused or a proof fails; with 2 where a file can't be read, rt is missing, or there are more arguments.
set -eu
here=$(dirname "$0")
. "$here/host/scripts/program.sh"
take_words 2 "$@"
lend "${1:-$here/samples/lanes.txt}"
if [ $# -gt 1 ]; then
    if [ -d "$2" ] || [ ! -r "$2" ]; then
        say "$2 cannot be read"
        exit 2
    fi
    exec < "$2"
    [ ! -f "$2" ] || warn_of_crlf "$2"
fi
cd "$here"
prove rehearse
program=$PWD/crates/rehearse/out/rehearse

play() {
    (cd "$folder" && exec "$program")
}

# A text that is accepted answers 51 to an empty line.
stop_if_refused "$(echo | play | head -n 1)"
if [ $# -gt 0 ] || [ -f /dev/stdin ] || [ -p /dev/stdin ]; then
    [ ! -t 0 ] || say "call lines, please; the end of the input (Ctrl-D) prints the objects"
    play
else
    show() {
        printf '%s\n' "samples/$1-board.calls"
        play < "samples/$1-board.calls" | paste "samples/$1-board.calls" - | expand -t 24
    }
    show left
    show right
    show line
    cp samples/pair.txt "$folder/lib.txt"
    show circle
    cp samples/tally.txt "$folder/lib.txt"
    show tally
fi
