# What people ask of labels: replay, table, shelf and record. Sourced by bench, whose functions it uses.
#
# The programs always exit with 0 and cannot say that a write failed. So their answer is read here, and handed on by a
# command that can. Exit status: 0 accepted (or nothing differs), 1 refused (or something differs), 2 could not.

# one byte more than the longest label, which is all that the programs read: the gate compares it with their code
label_bytes=38
# no label of a shelf is longer than this
record_bytes=4096
# the names of docs/VERDICTS.md, by number, of which 12 is not used: the gate compares them with the header's
verdicts=(ACCEPTED SIZE WORD INSTRUCTION START EXEC EXTENSION BUS LABEL STUCK ROOM OPEN [13]=ANSWER GRID EDITION LISTING SHORT HOST LIST)

# stop SENTENCE: what was asked could not be done
stop() {
    say "$*"
    exit 2
}

# misused SENTENCE: the words of the call are wrong
misused() {
    say "$*"
    usage >&2 || true
    exit 2
}

# words LEAST MOST WORDS..: so many words, none of them empty or an option
words() {
    local least=$1 most=$2 word
    shift 2
    for word in "$@"; do
        case $word in
            '') misused "an empty word" ;;
            -*) misused "no option '$word' (a name that begins with '-' is written as './$word')" ;;
        esac
    done
    [ $# -ge "$least" ] || misused "a word is missing"
    [ $# -le "$most" ] || misused "too many words: '${*:most + 1:1}'"
}

# locate NAME: path is the name as the caller's folder has it
locate() {
    case $1 in
        /*) path=$1 ;;
        *) path=$from/$1 ;;
    esac
}

# scratch: work is a folder for this call alone
scratch() {
    work=$(mktemp -d) || stop "no temporary folder can be made"
    trap 'kill $(jobs -p) 2>/dev/null || true; rm -rf "$work"' EXIT
}

# written COMMAND..: hands on what the command writes; a write that fails is said, and status 2
written() {
    local status=(0 0)
    "$@" | cat || status=("${PIPESTATUS[@]}")
    [ "${status[1]}" = 0 ] || stop "standard output cannot be written"
    return "${status[0]}"
}

# take BYTES FILE OUT: at most so many bytes of a file
take() {
    [ ! -d "$2" ] || stop "$2 is a folder, and no label"
    head -c "$1" -- "$2" >"$3" || stop "$2 cannot be read"
}

# take_label [FILE]: what the programs would read of a file, or of standard input
take_label() {
    words 0 1 "$@"
    scratch
    if [ $# = 1 ]; then
        locate "$1"
        take "$label_bytes" "$path" "$work/label"
    else
        head -c "$label_bytes" >"$work/label" || stop "standard input cannot be read"
    fi
}

# build PROGRAM..: what could not be built could not be asked
build() {
    local name
    need_kit
    for name in "$@"; do
        (program "$name") || stop "the program $name cannot be built"
    done
}

# replayed LABEL: what the replay program prints, and a dot, so that a variable keeps the last line's end
replayed() { run replay <"$1" && printf .; }

# ask: answer is what the replay program prints and a dot, and verdict its number
ask() {
    answer=$(replayed "$work/label") || stop "the replay program failed"
    [[ $'\n'$answer =~ $'\n'verdict=([0-9]+)$'\n' ]] || stop "the replay program gave no verdict"
    verdict=${BASH_REMATCH[1]}
}

# named ANSWER: its verdict by name, and the numbers that are not 0
named() {
    local said line
    [[ $'\n'$1 =~ $'\n'verdict=([0-9]{1,9})(.*) ]] || { echo "no answer"; return; }
    said=${verdicts[10#${BASH_REMATCH[1]}]:-verdict ${BASH_REMATCH[1]}}
    while IFS= read -r line; do
        [[ $line == ?*=?* && $line != *=0 ]] && said+=" ${line/=/ }"
    done <<<"${BASH_REMATCH[2]}"
    printf '%s\n' "$said"
}

# named_in FILE: the same of a file, whatever it holds
named_in() { named "$(tr -d '\0' <"$1")"; }

# replay_label [FILE]
replay_label() {
    take_label "$@"
    build replay
    ask
    written printf '%s' "${answer%.}"
    [ "$verdict" = 0 ] || exit 1
}

# table_label [FILE]: the table program writes nothing where it refuses, so the replay program says why
table_label() {
    take_label "$@"
    build replay table
    ask
    if [ "$verdict" != 0 ]; then
        say "refused, and no tables written: $(named "$answer")"
        exit 1
    fi
    written run table <"$work/label" || stop "the table program failed"
}
