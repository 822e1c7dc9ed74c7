# ./bench shelf and ./bench record. Sourced by tests/customers.sh.

shelves() {
    local folder
    gives 0 ./bench shelf shelf
    said ' labels, 0 differ, 0 not compared; '
    equal "the shelf's last words" "$(tail -n 1 "$work/said" | sed 's/.*; //')" "commit $(commit), kit $(kit_version)"
    # the folder is tested before anything is asked of the kit
    gives 2 without_kit ./bench shelf "$work/none"
    complained "$work/none is no folder"
    gives 2 without_kit ./bench shelf shelf/seed-0.label
    complained 'is no folder'
    folder=$(spaced empty)
    gives 2 without_kit ./bench shelf "$folder"
    complained 'has no label'
    gives 2 without_kit ./bench shelf shelf
    complained 'rt is missing'
}

# the faults that a shelf may have, each seen and told
shelf_faults() {
    local folder name
    folder=$(spaced faults)
    for name in seed-0 seed-last kind-add kind-mul kind-deref; do
        cp "shelf/$name.label" "shelf/$name.answer" "shelf/$name.tables" "$folder"
    done
    for name in label answer tables; do
        cp "shelf/seed-0.$name" "$folder/in two words.$name"
    done
    gives 0 in_folder "$folder/.." "$PWD/bench" shelf faults
    said '6 labels, 0 differ, 0 not compared'
    printf 'v=1\r\n' >"$folder/in two words.label"
    sed -i 's/verdict=0/verdict=7/; s/place=0/place=9/' "$folder/kind-add.answer"
    sed -i 's/^./g/' "$folder/kind-mul.tables"
    gives 1 ./bench shelf "$folder"
    said 'in two words: another answer: recorded ACCEPTED, now LABEL place 3; other tables: recorded '
    said 'kind-add: another answer: recorded BUS place 9, now ACCEPTED'
    said "kind-mul: other tables: recorded $(cut -c 1-64 "$folder/kind-mul.tables"), now $(cut -c 1-64 shelf/kind-mul.tables)"
    said '6 labels, 3 differ, 0 not compared'
    rm "$folder/kind-deref.answer"
    rm "$folder/seed-0.label" && mkdir "$folder/seed-0.label"
    ln -s nowhere "$folder/seed-lost.label"
    gives 2 ./bench shelf "$folder"
    said 'kind-deref: no record beside it'
    said 'seed-0: the label cannot be read'
    said 'seed-lost: the label cannot be read'
    said '7 labels, 3 differ, 3 not compared'
}

# records of before 3.0.0, of four lines, are told from other answers; CHANGELOG.md's loop makes them new, once and twice
shelf_old() {
    local folder name kind loop try
    folder=$(spaced old)
    loop=$(sed -n '/^    for answer in DIR/,/^    done$/p' CHANGELOG.md)
    [ -n "$loop" ] || fault "CHANGELOG.md has no loop over a folder's answers"
    for name in seed-0 refused-n-125; do
        for kind in label answer tables; do
            grep -v '^expected=\|^found=' "shelf/$name.$kind" >"$folder/$name.$kind"
        done
    done
    gives 1 ./bench shelf "$folder"
    said 'seed-0: the same answer in other lines, ACCEPTED: before 3.0.0 there was no expected= and no found='
    said 'refused-n-125: the same answer in other lines, LABEL place 35: before 3.0.0'
    said '2 labels, 2 differ, 0 not compared'
    cp shelf/seed-last.answer "$folder/seed-0.answer"
    gives 1 ./bench shelf "$folder"
    said 'seed-0: the same answer, ACCEPTED, and other bytes beside it'
    grep -v '^expected=\|^found=' shelf/seed-0.answer >"$folder/seed-0.answer"
    for try in 1 2; do
        (cd "$folder/.." && eval "${loop//DIR/old}")
        gives 0 ./bench shelf "$folder"
    done
}

# the best of five tries: under a second on an idle machine, and five are left to one with other work
shelf_time() {
    local try began took best=999999999
    [ "$(uname -m)" = x86_64 ] || return 0
    for try in 1 2 3 4 5; do
        began=$(date +%s%N)
        gives 0 ./bench shelf shelf
        took=$((($(date +%s%N) - began) / 1000000))
        [ "$took" -ge "$best" ] || best=$took
    done
    echo "the shelf of $(ls shelf/*.label | wc -l) labels: $best ms"
    [ "$best" -lt 5000 ] || fault "the shelf took $best ms"
}

records() {
    local folder kind name
    folder=$(spaced records)
    for name in seed-0 v2-eight-thrown refused-binary memory-29; do
        gives "0" ./bench record "shelf/$name.label" "$folder"
        for kind in label answer tables; do
            cmp -s "shelf/$name.$kind" "$folder/$name.$kind" || fault "$name.$kind was recorded as something else"
        done
    done
    printf 'v=1\nseed=00000000deadbeef\nm=10\nn=77\n' >"$folder/../my own"
    gives 0 in_folder "$folder/.." "$PWD/bench" record 'my own' records
    said 'my own: ACCEPTED'
    gives 0 in_folder "$folder/.." "$PWD/bench" record 'my own' records
    gives 0 ./bench shelf "$folder"
    said '5 labels, 0 differ'
    cp shelf/seed-last.label "$folder/../seed-0.label"
    gives 2 ./bench record "$folder/../seed-0.label" "$folder"
    complained 'is there already, with something else'
    cmp -s shelf/seed-0.label "$folder/seed-0.label" || fault "a recorded label was changed"
    gives 2 ./bench record "$work/none" "$folder"
    gives 2 ./bench record shelf/seed-0.label "$work/none"
    gives 2 ./bench record "$work" "$folder"
    gives 2 timeout 20 ./bench record /dev/zero "$folder"
    complained "more than $record_bytes bytes"
    equal "the files that record left" "$(ls -A "$folder" | wc -l)" 15
}

# disagreement: beside an implementation in Python that is wrong on purpose nothing is recorded
disagreement() {
    local copy=$work/copy item
    mkdir "$copy" "$copy/shelf"
    cp -r bench tools tests "$copy"
    for item in crates crates.txt target; do
        ln -s "$PWD/$item" "$copy/$item"
        touch -h -d 2000-01-01 "$copy/$item"
    done
    sed -i 's/return (8, 0, place, 0,/return (8, 0, place + 1, 0,/' "$copy/tests/oracle.py"
    ! cmp -s tests/oracle.py "$copy/tests/oracle.py" || fault "tests/oracle.py has no such line to spoil"
    gives 1 "$copy/bench" record shelf/refused-n-125.label "$copy/shelf"
    complained 'computed LABEL place 36, now LABEL place 35'
    equal "the files that a disagreement left" "$(ls -A "$copy/shelf" | wc -l)" 0
    gives 0 "$copy/bench" record shelf/seed-0.label "$copy/shelf"
}
