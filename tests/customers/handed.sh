# What customers are handed: the header's figures, drivers, an installed tree, the tarball, the crate for Rust. What a
# tree must hold is tests/customers/trees.sh. Sourced by tests/customers.sh.

# figure NAME: what the header says, as the compiler sees it
figure() { sed -n "s/^$1 //p" "$work/figures"; }

# rust_figure FILE NAME: a constant of a Rust file
rust_figure() { sed -n "s/^\(pub \)\?const $2: \(usize\|u64\) = \([0-9]*\);$/\3/p" "$1"; }

# lengths: what tests/customers/figures.c must find, by the header's figures: the one length of each buffer that has one
lengths() {
    local name kept
    echo "length judge's answer $(figure answer) SIZE"
    echo "length judge_split's answer $(figure answer) SIZE"
    echo "length count's grid $(figure grid) SIZE"
    echo "length count's answer $(figure answer) SIZE"
    for name in found answer; do
        echo "length ranges' $name $(figure "$name") SIZE"
    done
    for name in grid written answer; do
        echo "length report's $name $(figure "$name") SIZE"
    done
    echo "length translate's answer $(figure answer) ACCEPTED"
    for name in next answer; do
        echo "length jump's $name $(figure "$name") ACCEPTED"
    done
    for name in next answer; do
        echo "length host's $name $(figure "$name") HOST"
    done
    for name in v=1 v=2; do
        echo "length label's answer $(figure answer) ACCEPTED"
        echo "length label's recipe $(figure recipe) ACCEPTED"
    done
    # seed, m, n and, last, the version; what the buffer held where the label is refused
    kept=$(printf 'a5%.0s' {1..20})
    echo "label v=0 LABEL place 2 recipe $kept"
    echo "label v=1 ACCEPTED place 0 recipe efcdab89674523011d0000007c00000001000000"
    echo "label v=2 ACCEPTED place 0 recipe efcdab89674523011d0000007c00000002000000"
    echo "label v=3 LABEL place 2 recipe $kept"
    echo "longest ACCEPTED written $(figure report) place 0"
    echo "longest SIZE written 0 place $(figure report)"
    echo "room one 48 ACCEPTED place 0"
    echo "room three 144 EDITION place 1"
    printf 'instructions %d %s part %d\n' 0 SIZE 1 1 EDITION 0 1048576 EDITION 0 1048577 SIZE 1
}

# the header's figures are the code's, and every other place that states one agrees
figures() {
    local file name number
    compile "$work/figures-program" -Iinclude tests/customers/figures.c target/staticlib/libuisnabar.a &&
        emulated "$work/figures-program" >"$work/figures" || fault "the program that reads the header's figures failed"
    equal "lengths that the library takes" "$(grep '^length\|^label\|^longest\|^room\|^instructions' "$work/figures")" "$(lengths)"
    # document 02, M-103, M-104, M-106 and M-108
    equal "the lengths of an answer and of a recipe" "$(figure answer) $(figure recipe)" '24 20'
    equal "the length of a state, and the hosts" "$(figure next) $(figure hosts)" "8 $((1 << 24))"
    equal "the lengths of a number of finds, and of a find" "$(figure found) $(figure find)" '8 8'
    for number in "${!verdicts[@]}"; do
        echo "verdict $number ${verdicts[number]}"
    done >"$work/verdicts"
    cmp -s "$work/verdicts" <(grep ^verdict "$work/figures") || fault "the header has other verdicts than tools/answers.sh"
    sed -n '/^pub const NAMES/,/^];/s/^ *"\(.*\)",$/\1/p' rust/src/lib.rs |
        awk '$0 != "unknown" { print "verdict " NR - 1 " " $0 }' |
        cmp -s - "$work/verdicts" || fault "rust/src/lib.rs has other verdicts than tools/answers.sh"
    for file in rust/src/lib.rs examples/driver.rs; do
        equal "$file, answer" "$(rust_figure "$file" ANSWER_BYTES)" "$(figure answer)"
        equal "$file, recipe" "$(rust_figure "$file" RECIPE_BYTES)" "$(figure recipe)"
    done
    for name in stack count_stack grid written report found find line next; do
        equal "rust/src/lib.rs, $name" "$(rust_figure rust/src/lib.rs "${name^^}_BYTES")" "$(figure "$name")"
    done
    equal "rust/src/lib.rs, hosts" "$(rust_figure rust/src/lib.rs HOSTS)" "$(figure hosts)"
    equal "rust/Cargo.toml, version" "$(sed -n 's/^version = "\(.*\)"$/\1/p' rust/Cargo.toml)" "$(figure version)"
    equal "CHANGELOG.md, version" "$(sed -n 's/^## //p' CHANGELOG.md | head -n 1)" "$(figure version)"
    equal "the header's version as bench reads it" "$(version)" "$(figure version)"
    grep -qF "(answer $(figure answer) bytes, recipe $(figure recipe), grid " docs/VERDICTS.md ||
        fault "docs/VERDICTS.md has other lengths"
    grep -qxF "uisnabar $(figure version), leanVM draft 0.6.0" docs/DISPUTE.md ||
        fault "docs/DISPUTE.md shows another version"
}

# spoiled_c BYTES: the example in C with an answer of so many bytes, of which it must read none: so no warning of too few
spoiled_c() {
    sed "s/^#define UISNABAR_ANSWER_BYTES.*/#define UISNABAR_ANSWER_BYTES $1/" include/uisnabar.h >"$work/spoiled/uisnabar.h"
    compile "$work/spoiled-driver" -Wno-array-bounds "-I$work/spoiled" examples/driver.c target/staticlib/libuisnabar.a ||
        fault "examples/driver.c cannot be compiled"
    gives 1 of "$work/tables" emulated "$work/spoiled-driver"
    said_file <(echo ANSWER)
}

# spoiled_rust NAME BYTES: the same in Rust, of an answer or a recipe, and of a label
spoiled_rust() {
    sed "s/^const $1: usize = .*/const $1: usize = $2;/" examples/driver.rs >"$work/spoiled/driver.rs"
    gives 0 rustc -O -L target/staticlib -l static=uisnabar -o "$work/spoiled-rust" "$work/spoiled/driver.rs"
    gives 1 "$work/spoiled-rust" shelf/seed-0.label
    said_file <(echo ANSWER)
}

# a driver that is told ANSWER says so, and doesn't read the buffer: with none, with that of 2.0.0, one byte too short
# and one too long
answer_named() {
    local bytes
    mkdir "$work/spoiled"
    ./bench table shelf/seed-0.label >"$work/tables"
    for bytes in 0 16 23 25; do
        spoiled_c "$bytes"
    done
    links_rust || return 0
    for bytes in 0 16 23 25; do
        spoiled_rust ANSWER_BYTES "$bytes"
        gives 1 of "$work/tables" "$work/spoiled-rust"
        said_file <(echo ANSWER)
    done
    # the recipe's length before 2.0.0, and the answer's now
    spoiled_rust RECIPE_BYTES 16
    spoiled_rust RECIPE_BYTES 24
}

# spoil TABLES: the tables of shelf/seed-0.label with another byte in value B of execution row 17, README.md's example
spoil() { head -c 10664 "$1" && printf '\1' && tail -c +10666 "$1"; }

# what a driver reads of a refused lookup; the examples print it
lookups() {
    local told='EXEC part 3 place 17 rule 3 expected 335903614 found 335903489'
    compile "$work/lookups-program" -Iinclude tests/customers/lookups.c target/staticlib/libuisnabar.a ||
        fault "tests/customers/lookups.c cannot be compiled"
    gives 0 emulated "$work/lookups-program"
    said ' tried, 0 faults'
    ./bench table shelf/seed-0.label >"$work/tables"
    spoil "$work/tables" >"$work/spoiled-tables"
    compile "$work/lookups-driver" -Iinclude examples/driver.c target/staticlib/libuisnabar.a ||
        fault "examples/driver.c cannot be compiled"
    gives 1 of "$work/spoiled-tables" emulated "$work/lookups-driver"
    said_file <(echo "$told")
    links_rust || return 0
    gives 0 rustc -O -L target/staticlib -l static=uisnabar -o "$work/lookups-rust" examples/driver.rs
    gives 1 of "$work/spoiled-tables" "$work/lookups-rust"
    said_file <(echo "$told")
}

# what a driver reads of a memory in two buffers, in C and, where g++ compiles for x86-64, in C++
splits() {
    compile "$work/split-program" -Iinclude tests/customers/split.c target/staticlib/libuisnabar.a ||
        fault "tests/customers/split.c cannot be compiled"
    gives 0 emulated "$work/split-program"
    said ' tried, 0 faults'
    if [ "$(uname -m)" != x86_64 ] || ! command -v g++ >/dev/null; then
        echo "skipped: a driver in C++, for want of g++ for x86-64"
        return 0
    fi
    gives 0 g++ -std=c++17 -Wall -Wextra -Wpedantic -Werror -O3 -Iinclude -o "$work/split-cxx" tests/customers/split.c \
        target/staticlib/libuisnabar.a
    gives 0 "$work/split-cxx"
    said ' tried, 0 faults'
}

# what a driver reads of range checks
ranges() {
    compile "$work/ranges-program" -Iinclude tests/customers/ranges.c target/staticlib/libuisnabar.a ||
        fault "tests/customers/ranges.c cannot be compiled"
    gives 0 emulated "$work/ranges-program"
    said ' tried, 0 faults'
}

# what a driver reads of a listing, and hands in; the longest line is the header's
listings() {
    compile "$work/listings-program" -Iinclude tests/customers/listings.c target/staticlib/libuisnabar.a ||
        fault "tests/customers/listings.c cannot be compiled"
    gives 0 emulated "$work/listings-program"
    said ' tried, 0 faults'
}

# what a driver reads of a jump and of a host's start
streams() {
    compile "$work/streams-program" -Iinclude tests/customers/streams.c target/staticlib/libuisnabar.a ||
        fault "tests/customers/streams.c cannot be compiled"
    gives 0 emulated "$work/streams-program"
    said ' tried, 0 faults'
}

# no exported function uses more stack than the header says
stack_figure() {
    local name bytes limit
    gives 0 ./bench stack
    grep '^uisnabar_.* bytes of stack$' "$work/said" >"$work/stacks" || true
    equal "exported functions measured" "$(wc -l <"$work/stacks")" "$(grep -c '^uint32_t uisnabar_' include/uisnabar.h)"
    while read -r name bytes _; do
        limit=$(figure stack)
        [ "$name" != uisnabar_count: ] || limit=$(figure count_stack)
        [ "$bytes" -le "$limit" ] || fault "$name uses $bytes bytes of stack, the header says $limit"
    done <"$work/stacks"
}

installed() {
    local folder
    folder=$(spaced installed)
    gives 0 in_folder "$folder" "$PWD/bench" install 'the prefix'
    said ''
    tree_alone "$folder/the prefix"
    gives 0 ./bench install "$folder/the prefix"
    gives 2 ./bench install shelf/seed-0.label
    complained 'cannot be written'
    gives 2 ./bench install /dev/null/prefix
}

# counted_tree PREFIX: the number of faults as status, since it runs apart
counted_tree() {
    faults=0
    holds_tree "$1"
    return "$((faults < 90 ? faults : 90))"
}

# tree_alone PREFIX: the tree with no kit on PATH
tree_alone() {
    local missed=0
    without_kit counted_tree "$1" || missed=$?
    faults=$((faults + missed))
}

tarball() {
    local folder first name
    folder=$(spaced tarball)
    gives 0 ./bench dist
    name=$(cat "$work/said")
    first=$(sha256sum <"$name")
    gives 0 ./bench dist
    equal "the tarball, made twice" "$(sha256sum <"$name")" "$first"
    equal "files that bear a date of their own" "$(tar --utc -tvzf "$name" | grep -vc ' 2000-01-01 00:00 ')" 0
    tar -C "$folder" -xzf "$name" || fault "$name cannot be unpacked"
    mv "$folder/$(basename "$name" .tar.gz)" "$folder/moved"
    gives 0 in_folder "$folder/moved" sha256sum --quiet -c SHA256SUMS
    equal "files with a checksum" "$(wc -l <"$folder/moved/SHA256SUMS")" "$(($(find "$folder/moved" -type f | wc -l) - 1))"
    equal "the tarball's origin" "$(cat "$folder/moved/share/uisnabar/origin")" "$(origin)"
    tree_alone "$folder/moved"
}

links_rust() { [ "$(uname -m)" = x86_64 ] && command -v rustc >/dev/null; }

# the crate's own tests, in the repository and as the tarball has it, where cargo builds for x86-64
rust_crate() {
    if ! { links_rust && command -v cargo >/dev/null; }; then
        echo "skipped: the crate for Rust, for want of cargo for x86-64"
        return 0
    fi
    local folder="$work/a folder/tarball/moved/share/uisnabar/rust"
    gives 0 cargo test --offline --locked --quiet --manifest-path rust/Cargo.toml --target-dir "$work/cargo"
    gives 0 without_kit cargo test --offline --locked --quiet --manifest-path "$folder/Cargo.toml" --target-dir "$work/cargo-tree"
    gives 101 env UISNABAR_LIB_DIR="$work" cargo build --offline --locked --manifest-path rust/Cargo.toml --target-dir "$work/cargo"
    complained 'name its folder in UISNABAR_LIB_DIR'
}
