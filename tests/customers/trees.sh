# What an installed tree must hold, and do with no kit on PATH. Sourced by tests/customers.sh.

# small WORDS..: words below 256 as a part has them
small() { printf "$(printf '\\%o\\0\\0\\0' "$@")"; }

# reads PREFIX: the command there says a label's version, and which there are
reads() {
    printf 'v=2\nseed=000000012fffffff\nm=10\nn=12\n' >"$work/label"
    gives 0 emulated "$1/bin/uisnabar" label "$work/label"
    complained 'ACCEPTED: a label of version 2, seed 000000012fffffff, m 10 and n 12'
    printf 'v=3\nseed=000000012fffffff\nm=10\nn=12\n' >"$work/label"
    gives 1 emulated "$1/bin/uisnabar" label "$work/label"
    complained 'line 1 must be v=1 or v=2 (versions 1 and 2 are known)'
}

# finds PREFIX: the command there says what a refused lookup was of
finds() {
    native "$1/bin/uisnabar-table" <"$1/share/uisnabar/shelf/seed-0.label" >"$work/tables" || fault "uisnabar-table failed: $1"
    spoil "$work/tables" >"$work/spoiled-tables"
    gives 1 emulated "$1/bin/uisnabar" judge "$work/spoiled-tables"
    said_file <(printf '%s\n' verdict=5 part=3 place=17 rule=3 expected=335903614 found=335903489)
    complained 'value B must be the cell at address B; cell 0 holds 335903614, value B is 335903489'
}

# played FOLDER: a page's script there, with the command that it names
played() { (cd "$1" && . ./command && . ./script); }

# cuts PREFIX: the command there does docs/VERDICTS.md's example of a memory in two files, with the tables that `finds`
# left; 3 words and 253 are refused
cuts() {
    local parts="$work/cut"
    mkdir -p "$parts"
    sed -n '/^## Public words in their own buffer/,/^## /s/^    //p' "$1/share/doc/uisnabar/VERDICTS.md" >"$parts/script"
    printf 'uisnabar() { emulated "%s" "$@"; }\n' "$1/bin/uisnabar" >"$parts/command"
    cp "$work/tables" "$parts/tables"
    gives 1 played "$parts"
    said_file <(printf '%s\n' {verdict,part,place,rule,expected,found}=0 \
        verdict=5 part=3 place=14 rule=2 expected=73574913 found=73575058)
    complained 'ACCEPTED: the tables satisfy the constraints of leanVM draft 0.6.0'
    complained 'cell 16 holds 73574913, value A is 73575058; cell 16 is word 0 of the rest'
    head -c 12 "$parts/public" >"$parts/three"
    head -c 1012 "$parts/rest" >"$parts/others"
    gives 1 emulated "$1/bin/uisnabar" judge --public "$parts/three" "$parts"/{program,others,exec,ext}
    said_file <(printf '%s\n' verdict=1 part=2 place=0 rule=0 expected=0 found=0)
    complained "SIZE: the public words have 12 bytes and the rest 1012: 12 bytes are not 2^m' words with m' at most 28;"
    gives 2 emulated "$1/bin/uisnabar" judge --public "$parts/public" "$parts/tables"
    complained '--public goes with PROGRAM REST EXEC EXT'
}

# checks PREFIX: the command there finds the range check of docs/VERDICTS.md's example, and nothing in refused tables
checks() {
    local parts="$work/checked"
    mkdir -p "$parts"
    sed -n '/^## Range checks/,/^## /s/^    op=/op=/p' "$1/share/doc/uisnabar/VERDICTS.md" >"$parts/listing"
    gives 0 emulated "$1/bin/uisnabar" assemble "$parts/listing" "$parts/program"
    # words apart: cells from 7 on, the rows of the halt, padding, which looks up cells 8 to 12
    small 0 0 7 0 0 2 7 $(printf '0 %.0s' {7..255}) >"$parts/memory"
    small 0 0 2 7 4 7 0 0 1 0 2 0 5 7 0 2 2 0 5 2 6 2 7 7 $(printf '3 0 0 0 0 0 0 0 %.0s' {3..255}) >"$parts/exec"
    small $(printf '1 0 0 0 1 8 8 8 0 0 0 0 0 0 0 0 0 0 0 0 0 0 0 0 0 0 0 0 0 0 %.0s' {0..255}) >"$parts/ext"
    gives 0 emulated "$1/bin/uisnabar" ranges "$parts"/{program,memory,exec,ext}
    said_file <(echo 'row=0 cell=2 bound=10 value=7')
    complained 'ACCEPTED: range checks found in 256 rows: 1'
    gives 1 emulated "$1/bin/uisnabar" ranges --fp 1 "$parts"/{program,memory,exec,ext}
    said ''
    complained 'START: execution row 0 has pc 0 and fp 0, and the start handed in is pc 0 and fp 1'
}

# LIST's sentence, by a command with room for no find; the parts are those that `checks` left
list_said() {
    local short="$work/short"
    mkdir -p "$short"
    cp cli/*.[ch] "$short"
    sed -i 's/MOST_ROWS = 1 << 25/MOST_ROWS = 0/' "$short/ranges.c"
    compile "$short/uisnabar" -Wno-type-limits -static -Iinclude "$short"/*.c target/staticlib/libuisnabar.a ||
        fault "cli/ with room for no find cannot be compiled"
    gives 1 emulated "$short/uisnabar" ranges "$work"/checked/{program,memory,exec,ext}
    said ''
    complained 'LIST: the buffer for the finds is too short: there are 1, which need 8 bytes'
}

# translates PREFIX: the command there writes a MUL of draft 0.5.0 by fp, and a refused program leaves what was written
translates() {
    small 1 2 3 0 0 1 0 1 0 0 0 0 0 0 >"$work/old"
    small 1 2 0 0 0 0 1 0 1 0 0 0 >"$work/wanted"
    gives 0 emulated "$1/bin/uisnabar" translate "$work/old" "$work/new"
    cmp -s "$work/new" "$work/wanted" || fault "another translation: $1"
    small 1 2 3 0 0 1 0 1 0 0 0 0 0 1 >>"$work/old"
    gives 1 emulated "$1/bin/uisnabar" translate "$work/old" "$work/new"
    complained 'EDITION: instruction 1 of the program of draft 0.5.0, at byte 56, is not translatable: AUX_2 must be 0'
    cmp -s "$work/new" "$work/wanted" || fault "a refused program changed what was written: $1"
}

# lists PREFIX: the command there assembles a listing and lists it, and a refused one leaves what was written
lists() {
    local line='op=mul a=cell:1 b=imm:2 c=fp:3'
    echo "$line" >"$work/listing"
    small 1 2 3 0 1 0 1 0 1 0 0 0 >"$work/wanted"
    gives 0 emulated "$1/bin/uisnabar" assemble "$work/listing" "$work/assembled"
    cmp -s "$work/assembled" "$work/wanted" || fault "another program: $1"
    gives 0 emulated "$1/bin/uisnabar" list "$work/assembled"
    said_file "$work/listing"
    printf '%s\r\n' "$line" >"$work/listing"
    gives 1 emulated "$1/bin/uisnabar" assemble "$work/listing" "$work/assembled"
    said_file <(printf '%s\n' verdict=16 part=0 place=30 rule=0 expected=0 found=0)
    complained 'LISTING: line 1, column 31: LF, or a digit with which the number does not pass 2130706432, is expected here, not CR'
    cmp -s "$work/assembled" "$work/wanted" || fault "a refused listing changed what was written: $1"
}

# campaigns PREFIX: the command and the programs there do README.md's two lines, and docs/VERDICTS.md's script, whose
# labels are accepted; a number that is no host's writes none
campaigns() {
    local label
    mkdir -p "$work/campaign"
    sed -n '/^## Streams from one seed/,/^    done/s/^    //p' "$1/share/doc/uisnabar/VERDICTS.md" >"$work/campaign/script"
    printf 'uisnabar() { emulated "%s" "$@"; }\n' "$1/bin/uisnabar" >"$work/campaign/command"
    gives 0 emulated "$1/bin/uisnabar" host 000000012fffffff 3
    said_file <(echo a016e3012fffffff)
    gives 0 emulated "$1/bin/uisnabar" jump a016e3012fffffff 1024
    complained "ACCEPTED: seed $(cat "$work/said") is 1024 draws on from seed a016e3012fffffff"
    (cd "$work/campaign" && rm -rf host-* && . ./command && . ./script) 2>"$work/complained" || fault "the page's script failed: $1"
    complained 'ACCEPTED: host 3 begins with seed a016e3012fffffff, 3298534883328 draws on from seed 000000012fffffff'
    equal "the script's labels" "$(cd "$work/campaign" && echo host-*/*)" 'host-3/0.label host-3/1.label host-3/2.label host-3/3.label'
    grep -qxF "seed=$(cat "$work/said")" "$work/campaign/host-3/1.label" || fault "another seed in the second label: $1"
    for label in "$work/campaign"/host-3/*.label; do
        native "$1/bin/uisnabar-replay" <"$label" | grep -qx verdict=0 || fault "the script's label is refused: $label"
    done
    gives 1 emulated "$1/bin/uisnabar" host 000000012fffffff 16777216
    said ''
    complained "HOST: 16777216 is no host's number: hosts are 0 to 16777215"
}

# holds_tree PREFIX: a driver compiled by pkg-config judges; the programs answer the shelf, and the command counts its
# forms, says what was found, takes a memory in two files, finds range checks, translates, lists, reads labels and gives
# hosts their seeds; all as in the repository
holds_tree() {
    local doc=$1/share/doc/uisnabar shelf=$1/share/uisnabar/shelf flags label
    flags=$(PKG_CONFIG_PATH=$1/lib/pkgconfig pkg-config --cflags --libs uisnabar) || fault "pkg-config knows no uisnabar"
    equal "pkg-config's version" "$(PKG_CONFIG_PATH=$1/lib/pkgconfig pkg-config --modversion uisnabar)" "$(version)"
    # pkg-config puts a backslash before a space
    eval "compile \"\$work/tree-driver\" \"\$doc/driver.c\" $flags" || { fault "driver.c cannot be compiled in $1"; return 0; }
    rm -f "$work/tree-grid"
    for label in "$shelf"/*.label; do
        native "$1/bin/uisnabar-replay" <"$label" | cmp -s - "${label%.label}.answer" || fault "another answer: $label"
        native "$1/bin/uisnabar-table" <"$label" >"$work/tables" || fault "uisnabar-table failed: $label"
        equal "$label" "$(sha256sum <"$work/tables")" "$(cat "${label%.label}.tables")"
        [ -s "$work/tables" ] || continue
        gives 0 of "$work/tables" emulated "$work/tree-driver"
        gives 0 emulated "$1/bin/uisnabar" count "$work/tree-grid" "$work/tables"
    done
    gives 0 emulated "$1/bin/uisnabar" report "$work/tree-grid"
    said_file "$work/report"
    finds "$1"
    cuts "$1"
    checks "$1"
    translates "$1"
    lists "$1"
    reads "$1"
    campaigns "$1"
    for label in VERDICTS.md LISTING.md CHANGELOG.md driver.rs; do
        [ -s "$doc/$label" ] || fault "$doc has no $label"
    done
    diff -r shelf "$shelf" >/dev/null || fault "$shelf is not the shelf"
    gives 0 emulated "$1/bin/uisnabar" --version
}

# native FILE: a program under the system's loader, on Arm under the kit's
native() { if [ "$(uname -m)" = x86_64 ]; then "$1"; else loaded "$1"; fi; }
