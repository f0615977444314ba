#!/usr/bin/env bash
# Differential runs of the engine against the Rust; README.md says what is compared.
#
#   harness/run.sh [--rust FOLDER] [--against engine|plain] [--seed N] [--books N] [--first N] [--jobs N]
#   harness/run.sh --time | --sample FILE | --replay FILE | --show FILE | --faults   (with the same options)
#   harness/run.sh --examples
#
# With --archive FOLDER, the libwirumbane.a of that folder is taken, and none is made.
set -euo pipefail
here=$(cd "$(dirname "$0")" && pwd)
top=$(dirname "$here")

rust=$top/../shared/docs/src
against=engine
archive=
task=compare
hash_flags=
words=()
while [ $# -gt 0 ]; do
    case $1 in
        --rust) rust=$2; shift ;;
        --against) against=$2; shift ;;
        --archive) archive=$2; shift ;;
        --flat-hash) hash_flags="--cfg flat_hash" ;;
        --faults) task=faults ;;
        --examples) task=examples ;;
        --time) task=time; words+=("$1") ;;
        *) words+=("$1") ;;
    esac
    shift
done

# The folder of libwirumbane.a, which is proved and made unless one was given.
ready_archive() {
    if [ -n "$archive" ]; then
        archive=$(cd "$archive" && pwd) || exit 2
    else
        (cd "$top/crates/wirumbane" && rt lib --cpu x86-64) || exit 2
        archive=$top/crates/wirumbane/out
    fi
    [ -e "$archive/libwirumbane.a" ] || { echo "no libwirumbane.a in $archive" >&2; exit 2; }
}

if [ "$task" = examples ]; then
    ready_archive
    source "$here/examples.sh"
    exit
fi

rust=$(cd "$rust" && pwd) || exit 2

# Runs keep every assertion of the Rust; times are taken without them.
if [ "$task" = time ]; then
    flags="--edition 2024 -C opt-level=3"
else
    flags="--edition 2024 -C opt-level=2 -C debug-assertions=on -C overflow-checks=on"
fi
out=$top/target/harness/$([ "$task" = time ] && echo time || echo run)$([ -z "$hash_flags" ] || echo -flat)
mkdir -p "$out"

published="action/mod action/mask table_spec pool/mod free_join/mod containers/mod common base_values/mod
    table_shortcuts row_buffer/mod"
crates="fixedbitset rustc_hash hashbrown smallvec crossbeam_queue dyn_clone indexmap dashmap num
    egglog_numeric_id egglog_concurrency"

# The library core_relations: the published files, linked and not copied, in a tree of their own
# paths, and the stand-ins of harness/rust around them.
build_rust() {
    rm -rf "$out/tree" "$out/lib"
    mkdir -p "$out/lib"
    cp -rs "$here/rust" "$out/tree"
    for file in $published; do
        mkdir -p "$(dirname "$out/tree/$file")"
        ln -s "$rust/core-relations/src/$file.rs" "$out/tree/$file.rs"
    done
    local externs=
    for crate in $crates; do
        rustc $flags $hash_flags -L "$out/lib" $externs --check-cfg 'cfg(flat_hash)' --crate-type rlib \
            --crate-name "$crate" -o "$out/lib/lib$crate.rlib" "$here/rust/crates/$crate.rs"
        externs="$externs --extern $crate=$out/lib/lib$crate.rlib"
    done
    rustc $flags --crate-type rlib --crate-name book -o "$out/lib/libbook.rlib" "$here/src/book.rs"
    rustc $flags -L "$out/lib" $externs --extern book="$out/lib/libbook.rlib" --crate-type rlib \
        --crate-name core_relations -o "$out/lib/libcore_relations.rlib" "$out/tree/lib.rs"
    # `rt ci` refuses links, wherever they are.
    rm -rf "$out/tree"
}

# The program: build_program FOLDER-OF-SOURCES RESULT FLAGS...
build_program() {
    local sources=$1 result=$2
    shift 2
    rustc "$@" --check-cfg 'cfg(engine)' -L "$out/lib" --extern book="$out/lib/libbook.rlib" \
        --extern core_relations="$out/lib/libcore_relations.rlib" --crate-name harness -o "$result" "$sources/main.rs"
}

# Whether RESULT was made from these very inputs; if not, notes them for the next time.
made_from() {
    local result=$1 inputs
    shift
    inputs=$(cat "$@" | sha256sum; rustc --version; echo "$flags $hash_flags")
    [ -e "$result" ] && [ "$(cat "$result.from" 2>/dev/null)" = "$inputs" ] && return 0
    rm -f "$result"
    echo "$inputs" > "$result.from"
    return 1
}

mapfile -t rust_inputs < <(find "$here/rust" "$rust/core-relations" -name '*.rs' | sort)
mapfile -t inputs < <(find "$here/rust" "$here/src" "$rust/core-relations" -name '*.rs' | sort)
made_from "$out/lib.done" "${rust_inputs[@]}" "$here/src/book.rs" || { build_rust; touch "$out/lib.done"; }

if [ "$task" = faults ]; then
    source "$here/faults.sh"
    exit
fi

if [ "$against" = engine ]; then
    ready_archive
    program=$out/with-engine
    made_from "$program" "${inputs[@]}" "$archive/libwirumbane.a" ||
        build_program "$here/src" "$program" $flags --cfg engine -L "native=$archive" -l static=wirumbane
else
    program=$out/plain
    made_from "$program" "${inputs[@]}" || build_program "$here/src" "$program" $flags
fi
exec "$program" --against "$against" ${words[@]+"${words[@]}"}
