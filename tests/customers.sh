# What customers hold, tried as they would: the commands, the library, an installed tree, the tarball, the crate for
# Rust. Sourced by bench, which runs `customers`; each fault is a line, and one is enough to fail.
. tests/customers/commands.sh
. tests/customers/shelves.sh
. tests/customers/forms.sh
. tests/customers/handed.sh
. tests/customers/trees.sh

faults=0

fault() {
    printf 'customers: %s\n' "$*"
    faults=$((faults + 1))
}

# gives STATUS COMMAND..: it exits so; what it wrote is in $work/said and $work/complained
gives() {
    local wanted=$1 got=0
    shift
    "$@" >"$work/said" 2>"$work/complained" || got=$?
    [ "$got" = "$wanted" ] || fault "status $got and not $wanted: $* ($(tail -n 1 "$work/complained"))"
}

# said TEXT, complained TEXT: it stands in what the last command wrote; an empty text: it wrote nothing
said() { holds "$work/said" "$1"; }

complained() { holds "$work/complained" "$1"; }

holds() {
    if [ -z "$2" ]; then
        [ ! -s "$1" ] || fault "something was written: $(head -n 1 "$1")"
    else
        grep -qF -- "$2" "$1" || fault "'$2' was not written, but: $(head -n 3 "$1" | tr '\n' ' ')"
    fi
}

# said_file FILE: the last command wrote these bytes
said_file() { cmp -s "$work/said" "$1" || fault "other bytes than those of $1 were written"; }

# equal WHAT A B
equal() { [ "$2" = "$3" ] || fault "$1: '$2' and '$3'"; }

# of FILE COMMAND.., into FILE COMMAND.., in_folder FOLDER COMMAND..: with that input, output or folder
of() {
    local file=$1
    shift
    "$@" <"$file"
}

into() {
    local file=$1
    shift
    "$@" >"$file"
}

in_folder() {
    local folder=$1
    shift
    (cd "$folder" && "$@")
}

# closed COMMAND..: without a standard output
closed() { "$@" >&-; }

# without_kit COMMAND..: with no folder on PATH that has rt
without_kit() {
    local folder path='' folders
    IFS=: read -ra folders <<<"$PATH"
    for folder in "${folders[@]}"; do
        [ -x "$folder/rt" ] || path+=${path:+:}$folder
    done
    (
        PATH=$path
        ! command -v rt >/dev/null || exit 99
        "$@"
    )
}

# spaced NAME: a folder below one whose name has a space
spaced() {
    mkdir -p "$work/a folder/$1"
    printf '%s' "$work/a folder/$1"
}

customers() {
    need_kit
    need python3 python3
    need pkg-config pkg-config
    need_compiler
    build replay table
    archive uisnabar
    scratch
    local part
    for part in statuses inputs unwritable usages links shelves shelf_faults shelf_time records disagreement \
        shelf_old shelf_forms forms_folders forms_statuses figures answer_named lookups splits ranges listings streams \
        stack_figure installed tarball list_said rust_crate; do
        "$part"
    done
    echo "what customers hold: $faults faults"
    [ "$faults" = 0 ]
}
