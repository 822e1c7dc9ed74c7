# The instruction forms that a folder of labels reaches. Sourced by bench, after tools/answers.sh and tools/shelf.sh.

# fresh_grid: all its counters are zero
fresh_grid() { head -c "$(sed -n 's/^#define UISNABAR_GRID_BYTES //p' include/uisnabar.h)" /dev/zero; }

# count_tables TABLES OUT: counts tables into the grid; says 'counted', or 'refused' or 'trouble' and why
count_tables() {
    local status=0
    emulated target/cli/uisnabar count "$work/grid" "$1" >"$2.answer" 2>"$2.said" || status=$?
    case $status in
        0) echo counted ;;
        1) echo "refused $(named_in "$2.answer")" ;;
        *) echo "trouble $(tail -n 1 "$2.said")" ;;
    esac
}

# count_label LABEL OUT: OUT becomes that line for a label; where the table program writes nothing, the replay program
# says why
count_label() {
    local answer said
    if ! readable "$1"; then
        said='trouble the label cannot be read'
    elif ! run table <"$1" >"$2.tables"; then
        said='trouble the table program failed'
    elif [ -s "$2.tables" ]; then
        said=$(count_tables "$2.tables" "$2")
    elif answer=$(replayed "$1"); then
        said="refused $(named "$answer")"
    else
        said='trouble the replay program failed'
    fi
    rm -f "$2.tables"
    printf '%s\n' "$said" >"$2"
}

# counted_labels: says each label that was not counted, and how many were; 0, 1 or 2 as exit status
counted_labels() {
    local i outcome name counted=0 refused=0 troubled=0
    for ((i = 0; i < ${#labels[@]}; i++)); do
        outcome_of "$i"
        case $outcome in
            counted) counted=$((counted + 1)) ;;
            refused*) refused=$((refused + 1)); say "$name: refused, and adds nothing: ${outcome#* }" ;;
            *) troubled=$((troubled + 1)); say "$name: not counted: ${outcome#* }" ;;
        esac
    done
    say "${#labels[@]} labels: $counted counted, $refused refused, $troubled could not be tried"
    [ "$troubled" = 0 ] || return 2
    [ "$refused" = 0 ]
}

# forms DIR: the report of a fresh grid into which the tables of every label were counted
forms() {
    local labels status=0
    find_labels "$1"
    build replay table
    (cli) || stop "the command cannot be built"
    scratch
    fresh_grid >"$work/grid"
    side_by_side count_label
    counted_labels || status=$?
    written emulated target/cli/uisnabar report "$work/grid" || stop "no report can be made"
    return "$status"
}
