# A folder of labels, each with its recorded answer and its tables' checksum beside it. Sourced by bench.

# readable FILE: a file, and no folder, that can be read
readable() { [ -f "$1" ] && [ -r "$1" ]; }

# differing FILE ANSWER: how the answer that a file has and this one differ; they do
differing() {
    local recorded now
    recorded=$(named_in "$1")
    now=$(named "$2")
    if [ "$recorded" = "$now" ] && ! grep -q '^found=' "$1"; then
        echo "the same answer in other lines, $now: before 3.0.0 there was no expected= and no found= (CHANGELOG.md)"
    elif [ "$recorded" = "$now" ]; then
        echo "the same answer, $now, and other bytes beside it"
    else
        echo "another answer: recorded $recorded, now $now"
    fi
}

# compare LABEL OUT: OUT becomes one line, 'same', or 'differs' or 'trouble' and what is to be said
compare() {
    local name=${1%.label} answer recorded tables said=''
    if ! readable "$1"; then
        said='trouble the label cannot be read'
    elif ! { readable "$name.answer" && readable "$name.tables"; }; then
        said='trouble no record beside it'
    elif ! { answer=$(replayed "$1") && tables=$(run table <"$1" | sha256sum); }; then
        said='trouble a program failed'
    else
        printf '%s' "${answer%.}" | cmp -s - "$name.answer" || said=$(differing "$name.answer" "$answer")
        recorded=$(tr -d '\0' <"$name.tables")
        [ "$tables" = "$recorded" ] || said+="${said:+; }other tables: recorded ${recorded%% *}, now ${tables%% *}"
        said=${said:+differs $said}
    fi
    printf '%s\n' "${said:-same}" >"$2"
}

# find_labels DIR: labels are those of the folder
find_labels() {
    [ -d "$1" ] || stop "$1 is no folder"
    [ -r "$1" ] && [ -x "$1" ] || stop "$1 cannot be read"
    labels=("$1"/*.label)
    [ -e "${labels[0]}" ] || [ -L "${labels[0]}" ] || stop "$1 has no label"
}

# strand FIRST STEP COMMAND: the command on every so many labels from the first on, each with a file for its outcome
strand() {
    local i
    for ((i = $1; i < ${#labels[@]}; i += $2)); do
        "$3" "${labels[i]}" "$work/$i"
    done
}

# side_by_side COMMAND: the same on all labels, as many at once as there are processors
side_by_side() {
    local i strands
    strands=$(nproc)
    for ((i = 0; i < strands; i++)); do
        strand "$i" "$strands" "$1" &
    done
    wait
}

# outcome_of I: outcome is the line that was left for a label, and name is the label's
outcome_of() {
    outcome=''
    [ ! -s "$work/$1" ] || read -r outcome <"$work/$1"
    : "${outcome:=trouble it was not tried}"
    name=${labels[$1]##*/}
    name=${name%.label}
}

# commit: what is checked out here, and whether something was changed; also for one who does not own the folder
commit() {
    local git=(git -c safe.directory="$PWD")
    { [ -e .git ] && "${git[@]}" describe --always --dirty=-changed --abbrev=12 --exclude='*' 2>/dev/null; } || echo unknown
}

kit_version() { rt version 2>/dev/null || echo unknown; }

# report: a line for each label that is not as recorded, and the counts; 0, 1 or 2 as exit status
report() {
    local i outcome name differing=0 troubled=0
    for ((i = 0; i < ${#labels[@]}; i++)); do
        outcome_of "$i"
        case $outcome in
            same) continue ;;
            differs*) differing=$((differing + 1)) ;;
            *) troubled=$((troubled + 1)) ;;
        esac
        printf '%s: %s\n' "$name" "${outcome#* }"
    done
    printf '%s labels, %s differ, %s not compared; commit %s, kit %s\n' \
        "${#labels[@]}" "$differing" "$troubled" "$(commit)" "$(kit_version)"
    [ "$troubled" = 0 ] || return 2
    [ "$differing" = 0 ]
}

# shelf DIR: what each label gives now against what is recorded beside it
shelf() {
    local labels
    find_labels "$1"
    build replay table
    scratch
    side_by_side compare
    written report
}

# place_beside NAME DIR: the three files of a label into a folder, the label last, each whole or not at all
place_beside() {
    local kind new
    for kind in answer tables label; do
        new=$2/.$1.$kind.new
        if ! { cp "$work/$1.$kind" "$new" && mv "$new" "$2/$1.$kind"; }; then
            rm -f "$new"
            stop "$2/$1.$kind cannot be written"
        fi
    done
}

# recorded NAME DIR: whether the label stands there already; one of that name with anything else stays as it is
recorded() {
    local kind there=0
    for kind in answer tables label; do
        [ -e "$2/$1.$kind" ] || continue
        cmp -s "$work/$1.$kind" "$2/$1.$kind" || stop "$2/$1.$kind is there already, with something else"
        there=$((there + 1))
    done
    [ "$there" = 3 ]
}

# record FILE DIR: adds a label with the answer and checksum that tests/oracle.py gives, where the programs agree
record() {
    local name=${1##*/} file folder outcome
    name=${name%.label}
    locate "$1" && file=$path
    locate "$2" && folder=$path
    case $name in '' | .*) stop "$1: a label's name may not be empty or begin with a dot" ;; esac
    [ -d "$folder" ] || stop "$2 is no folder"
    scratch
    take $((record_bytes + 1)) "$file" "$work/$name.label"
    [ "$(wc -c <"$work/$name.label")" -le "$record_bytes" ] || stop "$1 has more than $record_bytes bytes, and is no label"
    need python3 python3
    build replay table
    python3 tests/shelf.py "$work" beside "$name" || stop "the answer cannot be computed"
    compare "$work/$name.label" "$work/outcome"
    read -r outcome <"$work/outcome" || stop "$name was not compared"
    case $outcome in
        same) ;;
        differs*) say "$name not recorded, the programs differ: ${outcome//recorded/computed}"; exit 1 ;;
        *) stop "$name not recorded: ${outcome#* }" ;;
    esac
    recorded "$name" "$folder" || place_beside "$name" "$folder"
    written printf '%s: %s\n' "$name" "$(named_in "$work/$name.answer")"
}
