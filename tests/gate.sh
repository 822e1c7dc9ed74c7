# The gate, which ./bench sources: stages of checks, each with its time, and 'N passed, M failed' as the last line.
passed=0
failed=0
stage_name=''
stage_number=0
stages_ended=''

# check NAME COMMAND..: one test outside the proofs
check() {
    local name=$1
    shift
    if ("$@"); then
        echo "ok: $name"
        passed=$((passed + 1))
    else
        echo "FAILED: $name"
        failed=$((failed + 1))
    fi
}

# processor: sets `used` to the processor seconds of all that has ended; `times` knows those of this shell alone, so it
# is not called in $(..)
processor() {
    times >"$gate_scratch/times"
    used=$(awk 'NR == 2 { gsub(/[ms]/, " "); printf "%d", 60 * $1 + $2 + 60 * $3 + $4 }' "$gate_scratch/times")
}

# stage NAME: ends the stage before, keeps its time, and says which begins; without a name the last one ends
stage() {
    processor
    if [ -n "$stage_name" ]; then
        stages_ended+="$stage_name"$'\t'$((SECONDS - stage_began))$'\t'$((used - stage_used))$'\n'
    fi
    stage_name=${1:-} stage_began=$SECONDS stage_used=$used
    [ -z "$stage_name" ] || echo "== stage $((++stage_number)) of 4: $stage_name"
}

# the time by stage
stage_times() {
    printf '%s' "$stages_ended" >"$gate_scratch/stages"
    echo "== time by stage (minutes: by the clock, of processor)"
    awk -F '\t' '{ printf "%-48s %3d:%02d %3d:%02d\n", $1, $2 / 60, $2 % 60, $3 / 60, $3 % 60; c += $2; p += $3 }
        END { printf "%-48s %3d:%02d %3d:%02d\n", "together", c / 60, c % 60, p / 60, p % 60 }' "$gate_scratch/stages"
}

# same FILE COMMAND..: what the command writes is the file
same() {
    local file=$1
    shift
    "$@" | cmp - "$file"
}

# counted: what rt ci prints, with the number of each crate and each edit; when each crate was done is kept
counted() {
    local line ready=0 tried=0 crates edits began=$SECONDS
    crates=$(grep -c '^[a-z]' crates.txt)
    edits=$(edits)
    while IFS= read -r line; do
        if [[ $line =~ ^rt:\ ([A-Za-z0-9_]+)\ (proved$|NOT\ PROVED|is\ kept:) ]]; then
            printf '%s\t%d\t%s\n' "${BASH_REMATCH[1]}" $((SECONDS - began)) "${BASH_REMATCH[2]}" >>"$gate_scratch/crates"
            line+=" [crate $((++ready)) of $crates]"
        elif [[ $line = "rt: must-fail "* ]]; then
            line+=" [edit $((++tried)) of $edits]"
        fi
        printf '%s\n' "$line"
    done
}

# edits: how many edits the prover must refuse
edits() { find crates -path '*/must-fail/*.edit' | wc -l; }

# proofs: the checkout as it is, and nothing before it; what rt ci prints stays in target/gate
proofs() {
    local status=0 last
    touch "$gate_scratch/began" "$gate_scratch/crates"
    rt ci 2>&1 | tee "$gate_scratch/ci.log" | counted || status=${PIPESTATUS[0]}
    mkdir -p target/gate
    cp "$gate_scratch/ci.log" "$gate_scratch/crates" target/gate/
    last=$(tail -n 1 target/gate/ci.log)
    if [[ $last =~ ^([0-9]+)\ passed,\ ([0-9]+)\ failed$ ]]; then
        passed=$((passed + BASH_REMATCH[1]))
        failed=$((failed + BASH_REMATCH[2]))
    else
        echo "FAILED: rt ci gave no count"
        failed=$((failed + 1))
    fi
    check "rt ci ended well, with every edit refused and none bad" ended_well "$status"
    check "every edit is refused for a fact" tools/hollow
    [ "$status" != 0 ] || check "the programs that rt ci built are those run below" taken
}

# taken: the programs that rt ci built, at the time at which it began
taken() {
    local program
    for program in replay table; do
        placed "crates/$program/out/$program" "target/bin/$program" "$gate_scratch/began" || return
    done
}

# ended_well STATUS: that is 0, and the line with which rt ci ends tells as many edits refused as there are, and none bad
ended_well() {
    local ok
    [ "$1" = 0 ] || { echo "rt ci ended with status $1"; return 1; }
    ok=$(grep '^rt: ok' target/gate/ci.log) || { echo "rt ci does not say that all is well"; return 1; }
    if [[ $ok =~ ,\ ([1-9][0-9]*)\ bad ]]; then
        echo "must-fail edits that are bad, and show nothing: ${BASH_REMATCH[1]}"
        grep 'BAD EDIT' target/gate/ci.log
        return 1
    fi
    [[ $ok =~ must-fail\ edits:\ ([0-9]+)\ refused ]] && [ "${BASH_REMATCH[1]}" = "$(edits)" ] ||
        { echo "there are $(edits) must-fail edits, and of those that were refused rt ci says: $ok"; return 1; }
}

# driver: an example in C judges what the table program writes
driver() {
    local out=target/c/driver
    archive uisnabar
    program table
    compile "$out" -Iinclude examples/driver.c target/staticlib/libuisnabar.a &&
        [ "$(run table <shelf/seed-0.label | emulated "$out")" = "ACCEPTED part 0 place 0 rule 0 expected 0 found 0" ] &&
        [ "$(run table <shelf/seed-0.label | head -c -1 | { emulated "$out" || true; })" = "SIZE part 1 place 0 rule 0 expected 0 found 0" ]
}

# rust_driver: the same from Rust, on the machine that the archive links on
rust_driver() {
    rustc -O -L target/staticlib -l static=uisnabar -o target/c/rust-driver examples/driver.rs &&
        [ "$(run table <shelf/seed-0.label | target/c/rust-driver)" = "ACCEPTED part 0 place 0 rule 0 expected 0 found 0" ] &&
        [ "$(target/c/rust-driver shelf/upper-half-all.label | tail -n 1)" = "version 1 seed ffffffff2fffffff m 10 n 124" ]
}

header() {
    g++ -std=c++17 -Wall -Wextra -Wpedantic -Werror -fsyntax-only -x c++ include/uisnabar.h &&
        gcc -std=c11 -Wall -Wextra -Wpedantic -Werror -fsyntax-only -x c include/uisnabar.h
}

# endless input is ended by the program itself, which reads no more than a label and a byte
endless() {
    { yes || true; } | { timeout 20 ./bench replay || [ $? = 1 ]; } |
        cmp - <(printf 'verdict=8\npart=0\nplace=0\nrule=0\nexpected=0\nfound=0\n')
}

# input that cannot be read counts as ended, and output that cannot be written is no failure of a program's
failing() {
    local said
    run replay </ | cmp - <(printf 'verdict=8\npart=0\nplace=0\nrule=0\nexpected=0\nfound=0\n') &&
        said=$(run table </) && [ -z "$said" ] && run replay </dev/null >/dev/full
}

# the command, under the emulator where programs need it
cli_test() {
    local emulator=()
    [ "$(uname -m)" = x86_64 ] || emulator=(qemu-x86_64)
    cli && python3 tests/cli.py "${emulator[@]}" target/cli/uisnabar
}

# editions: programs of draft 0.5.0 that are written out with their translations and runs, through the library
editions() {
    against editions && python3 tests/editions.py cases | emulated target/c/editions | python3 tests/editions.py compare
}

# listings: lines, texts and programs by hand and by the Python implementation, through the library
listings() {
    against listings && python3 tests/listings.py cases | emulated target/c/listings | python3 tests/listings.py compare
}

# streams: jumps and hosts by hand and by the Python implementation, through the library
streams() {
    against streams && python3 tests/streams.py cases | emulated target/c/streams | python3 tests/streams.py compare
}

# ranges: range checks by hand and by the Python implementation, through the library
ranges() {
    against ranges && python3 tests/ranges.py cases | emulated target/c/ranges | python3 tests/ranges.py compare
}

# splits: memories in two buffers by hand and by the Python implementation, through the library
splits() {
    against split && python3 tests/split.py cases | emulated target/c/split | python3 tests/split.py compare
}

page_checks() {
    stage "contracts, pages"
    check "every public function's contract determines its answer and each lent byte" python3 tests/contracts.py
    check "the pages: wings as they are, widths, what each definition is for" python3 tests/pages.py
    check "docs/VERDICTS.md has every rule as it is" python3 tests/cli_page.py
    check "the header is C and C++" header
    check "an edit refused for no fact is told from others" tools/hollow selftest
}

value_checks() {
    stage "values computed by other means"
    local program
    for program in ground labels trials; do
        check "$program: what it must print, computed by other means" same "crates/test_$program/stdout" python3 "tests/$program.py" stdout
    done
    for program in labels trials; do
        check "$program: what it reads" same "crates/test_$program/stdin" python3 "tests/$program.py" stdin
    done
    check "the Python implementation's own checks" python3 tests/oracle.py
    check "the shelf's answers, computed by other means" python3 tests/shelf.py shelf check
}

run_checks() {
    stage "programs and library, run"
    check "the shelf, replayed" shelf shelf
    check "document 01's example, byte for byte" same shelf/refused-n-125.answer run replay <shelf/refused-n-125.label
    check "endless input is answered" endless
    check "failing input is answered" failing
    check "an example driver in C" driver
    if [ "$(uname -m)" = x86_64 ] && command -v rustc >/dev/null; then
        check "an example driver in Rust" rust_driver
    else
        echo "skipped: the example driver in Rust, for want of rustc for x86-64"
    fi
    check "what customers hold" ./bench customers
    check "the command uisnabar, on every verdict and rule" cli_test
    check "programs of draft 0.5.0: words, refusals and runs as written by hand" editions
    check "listings: by hand, of the shelf and of every form, every cut and every change of a byte" listings
    check "streams: by hand, every jump of up to a million draws, every edge of a host" streams
    check "range checks: by hand, of every kind of near miss, by chance, in rooms of every kind" ranges
    check "public words in their own buffer: lengths, lookups about the seam, every verdict at every cut" splits
    check "library and second implementation agree" differ 1 40000
    check "the same at the end of a page, on a small stack" differ --page 2 4000
    check "the same on large tables, in rounds and windows, accepted and refused" differ --large
}

# gate [--quick]: --quick trusts what was proved before and tries no edit
gate() {
    [ $# = 0 ] || [ "$*" = --quick ] || misused "test takes --quick or nothing"
    need_kit
    need python3 python3
    need gcc gcc libc6-dev
    need g++ g++
    need_compiler
    gate_scratch=$(mktemp -d)
    trap 'rm -rf "$gate_scratch"' EXIT
    if [ "${1:-}" = --quick ]; then
        stage "layout, proofs of what changed (rt all test)"
        check "all is laid out, what changed is proved, and programs print what they must" rt all test
    else
        stage "layout, proofs, edits, programs (rt ci)"
        proofs
    fi
    page_checks
    value_checks
    run_checks
    stage
    stage_times
    if [ "${1:-}" = --quick ]; then
        echo "quick: earlier proofs were trusted and no edit was tried. This is not the verdict: ./bench test is"
    else
        cp "$gate_scratch/stages" target/gate/times
        tools/budget total
    fi
    echo "$passed passed, $failed failed"
    [ "$failed" = 0 ]
}
