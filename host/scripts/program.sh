# What the scripts at the repository's top share: their use, how far a proof is, a program's folder, what a refusal means. They source it
# and run in the repository's folder.

say() {
    printf '%s: %s\n' "${0##*/}" "$*" >&2
}

# Prints the script's opening comment.
help() {
    sed -n '2,$ { /^#/!q; s/^# //p; }' "$0"
}

# Answers --help; more words than the script takes end it.
take_words() { # MOST WORDS
    most=$1
    shift
    case ${1-} in --help)
        help
        exit 0
        ;;
    esac
    if [ $# -gt "$most" ]; then
        help >&2
        exit 2
    fi
}

# How many crates a crate stands on, itself included.
crates_of() { # NAME
    awk -v top="$1" '
        function reach(name, n, i, uses) {
            if (!(name in line) || name in reached) return
            reached[name]
            count++
            n = split(line[name], uses, " ")
            for (i = 1; i <= n; i++) reach(uses[i])
        }
        { sub(/#.*/, "") }
        /:/ { name = $0; sub(/[ :].*/, "", name); sub(/^[^:]*:/, ""); line[name] = $0 }
        END { reach(top); print count + 0 }' crates.txt
}

# Passes on what `rt ci` prints, and tells of each crate that it proves and each edit that it tries: which of how many.
follow() { # CRATES EDITS
    proved=0 tried=0
    while IFS= read -r line || [ -n "$line" ]; do
        printf '%s\n' "$line"
        case $line in
        "rt: must-fail "*)
            tried=$((tried + 1))
            say "edit $tried of $2: ${line#rt: must-fail }"
            ;;
        "rt: "*": trying its must-fail edits"*) say "${line#rt: }" ;;
        "rt: "*": its tests are "*) say "${line#rt: }" ;;
        "rt: "*" is kept: "*) proved=$((proved + 1)) ;;
        "rt: "*" proved" | "rt: "*" NOT PROVED"*)
            proved=$((proved + 1))
            say "crate $proved of $1: ${line#rt: }"
            ;;
        "rt: "*" ran"*) say "program: ${line#rt: }" ;;
        esac
    done
}

# Passes on what `rt lib` or `rt run` prints, and tells of each crate that it proves. What has not changed is not proved again, and goes
# untold.
follow_build() { # CRATES
    proved=0 name=
    while IFS= read -r line || [ -n "$line" ]; do
        printf '%s\n' "$line"
        case $line in
        "crate "*": modules "*)
            name=${line#crate }
            name=${name%%:*}
            ;;
        "logic="*)
            [ -n "$name" ] || continue
            proved=$((proved + 1))
            how="NOT PROVED"
            case $line in "logic=proved "*) how=proved ;; esac
            say "crate $proved of at most $1: $name $how"
            name=
            ;;
        esac
    done
}

# Has `rt lib` or `rt run` prove and build a crate and those below it, and passes on what it prints. A program is run without input. The
# folder takes a note where that fails.
build() { # NAME lib|run FOLDER
    { (cd "crates/$1" && rt "$2" < /dev/null) 2>&1 || echo "$?" > "$3/failed"; } | follow_build "$(crates_of "$1")"
    [ ! -e "$3/failed" ]
}

# Makes a folder that goes when the script ends, with the text as its lib.txt.
lend() { # TEXT
    folder=$(mktemp -d)
    trap 'rm -rf "$folder"' EXIT
    trap 'exit 1' HUP INT TERM
    if [ -d "$1" ] || ! cat -- "$1" > "$folder/lib.txt"; then
        say "$1 cannot be read"
        exit 2
    fi
}

# Proves and builds a program where that is not done yet; after lend, whose folder it uses.
prove() { # NAME
    command -v rt > /dev/null || { say "the Rattle kit's rt is not on the PATH"; exit 2; }
    [ -x "crates/$1/out/$1" ] || say "proving and building $1: some minutes the first time, later runs start at once"
    build "$1" run "$folder" > "$folder/log" || { tail -n 20 "$folder/log" >&2; exit 1; }
}

# Says so where lines of a file end with CR LF.
warn_of_crlf() { # FILE [NAME]
    if LC_ALL=C grep -q "$(printf '\r')\$" "$1"; then
        say "${2:-$1}: lines end with LF alone, and some here end with CR LF"
    fi
}

# Where the first line printed refuses the text: prints it, says what its number means, shows the line that it names, and ends the script
# with 1.
stop_if_refused() { # PRINTED
    case $1 in "refused "[1-9]*) ;; *) return 0 ;; esac
    printf '%s\n' "$1"
    # shellcheck disable=SC2086 # the three words of a refusal
    set -- $1
    explain "$2"
    if [ "$3" -gt "$(sed -n '$=' "$folder/lib.txt")" ]; then
        say "line $3: the text has ended"
    elif [ "$3" -gt 0 ]; then
        say "line $3: $(sed -n "$3p" "$folder/lib.txt" | LC_ALL=C tr -c '\n[:print:]' '?' | cut -c 1-200)"
    fi
    warn_of_crlf "$folder/lib.txt" "the text"
    exit 1
}

# Says what the number of a text's fault means.
explain() { # NUMBER
    case $1 in
    11) say "11: the text has more than 32,768 bytes" ;;
    12) say "12: a line of no allowed form or out of place, a last line without LF, or a method without end" ;;
    13) say "13: a name is repeated where it must be new" ;;
    14) say "14: unknown class, field or method; a class is known only below its own line" ;;
    15) say "15: two parents bring different fields of one name" ;;
    16) say "16: the class before the dot is no ancestor of this class" ;;
    17) say "17: too many: at most 16 classes, 64 objects, 4 parents, 32 fields, 32 methods, 32 statements, a value for each field" ;;
    esac
}
