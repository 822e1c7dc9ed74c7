# ./bench forms. Sourced by tests/customers.sh.

# the shelf's forms are those that tests/forms.py gives, and so is every line said of them
shelf_forms() {
    gives 1 env LC_ALL=C ./bench forms shelf
    python3 tests/forms.py shelf >"$work/report" 2>"$work/reached" || fault "tests/forms.py failed"
    said_file "$work/report"
    grep -v '^bench: building\|^bench: [0-9]* of [0-9]*:' "$work/complained" | cmp -s - "$work/reached" ||
        fault "other words than those of tests/forms.py were said of the shelf's forms"
}

# the folder is tested before anything is asked of the kit
forms_folders() {
    gives 2 without_kit ./bench forms "$work/none"
    complained "$work/none is no folder"
    gives 2 without_kit ./bench forms "$(spaced empty)"
    complained 'has no label'
    gives 2 without_kit ./bench forms shelf
    complained 'rt is missing'
    said ''
}

# labels all counted, all refused, and some that cannot be read
forms_statuses() {
    local folder
    folder=$(spaced forms)
    cp shelf/seed-0.label "$folder/in two words.label"
    cp shelf/kind-add.label "$folder"
    gives 0 in_folder "$folder/.." "$PWD/bench" forms forms
    complained '2 labels: 2 counted, 0 refused, 0 could not be tried'
    complained ' possible forms were reached, in 512 rows'
    printf 'v=1\r\n' >"$folder/in two words.label"
    gives 1 ./bench forms "$folder"
    complained 'in two words: refused, and adds nothing: LABEL place 3'
    complained ' possible forms were reached, in 256 rows'
    rm "$folder/kind-add.label"
    gives 1 ./bench forms "$folder"
    said ''
    complained '0 of the 50 possible forms were reached, in 0 rows'
    mkdir "$folder/folder.label"
    ln -s nowhere "$folder/lost.label"
    cp shelf/kind-add.label "$folder"
    gives 2 ./bench forms "$folder"
    complained 'folder: not counted: the label cannot be read'
    complained 'lost: not counted: the label cannot be read'
    complained '4 labels: 1 counted, 1 refused, 2 could not be tried'
    said 'jump.imm.imm.fp=255'
}
