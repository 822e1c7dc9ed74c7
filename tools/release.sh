# What customers are handed: install and dist. Sourced by bench, after tools/answers.sh and tools/shelf.sh.

# version: the library's, which include/uisnabar.h states
version() { sed -n 's/^#define UISNABAR_VERSION "\(.*\)"$/\1/p' include/uisnabar.h; }

# lay MODE FILES.. FOLDER: files into a folder, which is made where it is missing
lay() {
    local mode=$1
    shift
    install -d "${@: -1}" && install -m "$mode" "$@"
}

# pkg_config: it names the folder that it stands in, so that the tree may be moved
pkg_config() {
    cat <<TEXT
prefix=\${pcfiledir}/../..
libdir=\${prefix}/lib
includedir=\${prefix}/include

Name: uisnabar
Description: The proved judge of leanVM tables, form counts, range checks, programs of draft 0.5.0, listings, streams, label reader (x86-64)
Version: $(version)
Cflags: -I\${includedir}
Libs: -L\${libdir} -luisnabar
TEXT
}

# origin: what a release was made of
origin() { printf 'version %s\ncommit %s\nkit %s\n' "$(version)" "$(commit)" "$(kit_version)"; }

build_library() {
    need_kit
    (archive uisnabar) || stop "the library cannot be built"
}

# ready: everything that is handed out is built
ready() {
    build replay table
    build_library
    ! declare -F cli >/dev/null || (cli) || stop "the command cannot be built"
}

# lay_out PREFIX: library, header, pkg-config file, commands, pages and the crate for Rust
lay_out() {
    local share=$1/share/uisnabar doc=$1/share/doc/uisnabar
    umask 022
    lay 644 target/staticlib/libuisnabar.a "$1/lib" &&
        lay 644 include/uisnabar.h "$1/include" &&
        install -d "$1/lib/pkgconfig" "$1/bin" && pkg_config >"$1/lib/pkgconfig/uisnabar.pc" &&
        install -m 755 target/bin/replay "$1/bin/uisnabar-replay" &&
        install -m 755 target/bin/table "$1/bin/uisnabar-table" &&
        lay 644 CHANGELOG.md docs/VERDICTS.md docs/LISTING.md examples/driver.c examples/driver.rs "$doc" &&
        lay 644 rust/Cargo.toml rust/Cargo.lock rust/build.rs "$share/rust" &&
        lay 644 rust/src/*.rs "$share/rust/src" &&
        lay 644 rust/tests/*.rs "$share/rust/tests" &&
        lay 644 shelf/* "$share/shelf" &&
        origin >"$share/origin" || return
    [ ! -f docs/DISPUTE.md ] || lay 644 docs/DISPUTE.md "$doc" || return
    ! declare -F cli >/dev/null || install -m 755 target/cli/uisnabar "$1/bin/uisnabar"
}

# install_at PREFIX
install_at() {
    locate "$1"
    ready
    lay_out "$path" || stop "$1 cannot be written"
    say "installed below $path: a driver's flags are those of"
    say "  PKG_CONFIG_PATH='$path/lib/pkgconfig' pkg-config --cflags --libs uisnabar"
}

# pack FOLDER NAME OUT: the tree as a tarball that is the same for the same bytes
pack() {
    tar -C "$1" --sort=name --mtime='2000-01-01 00:00Z' --owner=0 --group=0 --numeric-owner -cf - "$2" | gzip -n >"$3"
}

# dist: a tarball of what is installed, with checksums, for machines without the kit
dist() {
    local name
    ready
    scratch
    name=uisnabar-$(version)-x86_64-linux
    lay_out "$work/$name" &&
        install -m 644 tools/release.txt "$work/$name/README" &&
        (cd "$work/$name" && find . -type f -print0 | LC_ALL=C sort -z | xargs -0 sha256sum) >"$work/sums" &&
        install -m 644 "$work/sums" "$work/$name/SHA256SUMS" &&
        mkdir -p target/dist && pack "$work" "$name" "target/dist/$name.tar.gz.new" &&
        mv "target/dist/$name.tar.gz.new" "target/dist/$name.tar.gz" || stop "the tarball cannot be written"
    written printf '%s\n' "$PWD/target/dist/$name.tar.gz"
}
