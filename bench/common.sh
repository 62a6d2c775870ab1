# What several benchmarks need; each one's `run` reads it.
top=$(cd "$(dirname "${BASH_SOURCE[0]}")/.." && pwd)
rt=$(command -v rt || echo /opt/rattle/bin/rt)
registry=/usr/share/cargo/registry
machine="$(awk -F ': ' '/^model name/ { print $2; exit }' /proc/cpuinfo), $(nproc) processors"

# figures FILE BUILT: prints the figures on standard input below a line that says of which commit of crates/ they are, of which
# day, of which builds, proved or unproved, of which machine, and how many processes ran or waited on it in the last 15 minutes. With
# WRITE set it writes them to FILE, beside the benchmark.
figures() {
    local rows
    rows=$(cat)
    if ! git -C "$top" diff --quiet HEAD -- crates; then
        echo "crates/ is no commit's, so no figures are written" >&2
        return 1
    fi
    printf 'measured,%s,%s,%s,"%s",%s\n%s\n' "$(git -C "$top" log -1 --format=%h -- crates)" "$(date +%F)" "$2" "$machine" \
        "$(cut -d ' ' -f 3 /proc/loadavg)" "$rows" | tee ${WRITE:+"$here/$1"}
}

# built_as PROGRAM: how it was built, by where it lies
built_as() {
    case $1 in */crates/*/out/*) echo proved ;; *) echo unproved ;; esac
}

# count WORD..: the instructions of a run
count() {
    valgrind --tool=cachegrind --cache-sim=no --cachegrind-out-file=/dev/null "$@" 2>&1 >/dev/null |
        awk '/I *refs/ { gsub(",", "", $NF); print $NF }'
}

# missing PACKAGE COMMAND..: installs Debian's package where the command fails
missing() {
    local package=$1
    shift
    if "$@" >/dev/null 2>&1; then return; fi
    echo "installing $package" >&2
    as_root apt-get -qq update
    as_root apt-get -qq install -y --no-install-recommends "$package" >/dev/null
}

as_root() {
    if [ "$(id -u)" = 0 ]; then "$@"; else sudo "$@"; fi
}

# rust_crates NAME..: installs what Debian has of Rust's crates, and cargo and time
rust_crates() {
    local name
    missing cargo command -v cargo
    missing time test -x /usr/bin/time
    for name in "$@"; do
        missing "librust-$name-dev" compgen -G "$registry/$name-[0-9]*"
    done
}

# rust_side FOLDER: builds the Rust program there, with Debian's folder of crates in place of crates.io
rust_side() {
    mkdir -p "$1/.cargo"
    cat >"$1/.cargo/config.toml" <<TOML
[source.crates-io]
replace-with = "debian"

[source.debian]
directory = "$registry"
TOML
    (cd "$1" && cargo build --release --offline --quiet)
}

# rust_program FOLDER NAME DEPENDENCY..: writes its Cargo.toml, each dependency as Cargo has it
rust_program() {
    local folder=$1 name=$2
    shift 2
    {
        printf '[package]\nname = "%s"\nversion = "0.1.0"\nedition = "2021"\n\n[dependencies]\n' "$name"
        printf '%s\n' "$@"
        printf '\n[profile.release]\nopt-level = 3\n'
    } >"$folder/Cargo.toml"
}

# with_below CRATE..: these crates of this repository, and those of it that they stand on
with_below() {
    # crates.txt has the lowest first.
    tac "$top/crates.txt" | awk -F '[: ]+' -v given="$*" '
        BEGIN { count = split(given, names, " "); for (i = 1; i <= count; i++) wanted[names[i]] }
        !/^#/ && $1 in wanted { print $1; for (i = 2; i <= NF; i++) wanted[$i] }' | tac
}

# rattle_side FOLDER PROGRAM SOURCE CRATE..: proves and builds a Rattle program, in a repository of its own that has these crates
# as they lie here, with what is built of them. Its proofs, where it has some, lie beside the source under another name, so that no
# gate takes them for a crate's. With UNPROVED set it is built unproved, in two minutes. `built` says which.
rattle_side() {
    local folder=$1 program=$2 source=$3 crate part
    shift 3
    mkdir -p "$folder/crates/$program/src"
    cp "$top/HANDLES" "$folder/"
    echo "$program: $*" >"$folder/crates.txt"
    for crate in $(with_below "$@"); do
        grep "^$crate:" "$top/crates.txt" >>"$folder/crates.txt"
        mkdir -p "$folder/crates/$crate"
        for part in src specs proofs out; do
            rm -rf "$folder/crates/$crate/$part"
            [ ! -d "$top/crates/$crate/$part" ] || cp -a "$top/crates/$crate/$part" "$folder/crates/$crate/"
        done
    done
    cp "$source" "$folder/crates/$program/src/main.rt"
    rm -rf "$folder/crates/$program/proofs"
    if [ -d "$(dirname "$source")/proofs" ]; then
        cp -r "$(dirname "$source")/proofs" "$folder/crates/$program/"
        find "$folder/crates/$program/proofs" -name '*.answers' -exec sh -c 'mv "$1" "${1%.answers}.antt"' _ {} \;
    fi
    if [ -n "${UNPROVED:-}" ]; then
        built=unproved
        mkdir -p "$folder/crates/$program/out"
        "$top/tools/unproved" "$folder" "$folder/crates/$program/out/$program" "$program" --speed
        return
    fi
    # shellcheck disable=SC2034
    built=proved
    (cd "$folder/crates/$program" && "$rt" run </dev/null) >"$folder/log" 2>&1 || { tail -40 "$folder/log" >&2; return 1; }
}
