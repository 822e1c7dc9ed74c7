# ./bench replay, table, --help and wrong words: what they write, and their exit status. Sourced by tests/customers.sh.

statuses() {
    local name
    for name in seed-0 upper-half-all; do
        gives 0 ./bench replay "shelf/$name.label"
        said_file "shelf/$name.answer"
        gives 0 of "shelf/$name.label" ./bench replay
        said_file "shelf/$name.answer"
        gives 0 ./bench table "shelf/$name.label"
        complained ''
        equal "$name's tables" "$(sha256sum <"$work/said")" "$(cat "shelf/$name.tables")"
    done
    for name in refused-n-125 refused-binary refused-empty memory-11; do
        gives 1 ./bench replay "shelf/$name.label"
        said_file "shelf/$name.answer"
        gives 1 of "shelf/$name.label" ./bench replay
        said_file "shelf/$name.answer"
        gives 1 ./bench table "shelf/$name.label"
        said ''
    done
    complained 'SIZE part 2'
    gives 1 of shelf/refused-n-125.label ./bench table
    complained 'LABEL place 35'
    grep -q "let mut text = \[0u8; $label_bytes\];" crates/replay/src/main.rt || fault "replay reads other than $label_bytes bytes"
    grep -q "let mut text = \[0u8; $label_bytes\];" crates/table/src/main.rt || fault "table reads other than $label_bytes bytes"
}

# no_input COMMAND..: without a standard input
no_input() { "$@" <&-; }

inputs() {
    local command
    for command in replay table; do
        gives 2 ./bench "$command" "$work/none"
        said ''
        complained "$work/none cannot be read"
        gives 2 ./bench "$command" "$work"
        complained "$work is a folder"
        gives 2 of "$work" ./bench "$command"
        complained 'standard input cannot be read'
        gives 2 no_input ./bench "$command"
        gives 2 ./bench "$command" shelf/seed-0.label shelf/seed-0.label
        gives 2 ./bench "$command" --file
        gives 2 ./bench "$command" ''
        said ''
        gives 1 timeout 20 ./bench "$command" /dev/zero
    done
}

# unwritten WORDS..: where nothing can be written
unwritten() {
    gives 2 into /dev/full ./bench "$@"
    gives 2 closed ./bench "$@"
}

# every command that writes to standard output; a refused label too
unwritable() {
    mkdir "$work/unwritable"
    unwritten replay shelf/seed-0.label
    unwritten replay shelf/refused-cut.label
    unwritten table shelf/seed-0.label
    unwritten shelf shelf
    unwritten forms shelf
    unwritten record shelf/seed-0.label "$work/unwritable"
    unwritten dist
    unwritten --help
    unwritten replay --help
    gives 2 into /dev/full ./bench differ 1 5
    gives 2 into /dev/full ./bench stack
}

usages() {
    local command
    for command in --help 'replay --help' 'install --help'; do
        gives 0 ./bench $command
        said 'usage: ./bench replay'
        complained ''
    done
    for command in '' nonsense -x shelf 'shelf a b' forms 'forms a b' record 'record a' install 'install a b' 'dist a' \
        'lib a' 'differ' 'differ x' 'differ 1 x' 'differ 0' 'stack a' 'speed a'; do
        gives 2 ./bench $command
        said ''
        complained 'usage: ./bench replay'
    done
}

links() {
    local folder
    folder=$(spaced links)
    ln -s "$PWD/bench" "$folder/linked"
    ln -s linked "$folder/twice"
    cp shelf/seed-0.label "$folder/my label"
    gives 0 in_folder "$folder" ./twice replay 'my label'
    said_file shelf/seed-0.answer
    gives 0 in_folder "$folder" ./linked --help
    gives 0 in_folder / "$folder/linked" replay "$folder/my label"
}
