# shellcheck shell=sh
# Sourced by tools/install and tools/package. They set `me`, the name in messages, and `root`, the folder of the repository.
: "${me:?}" "${root:?}"
umask 022
prove_here=
archive=${CAPTIONS_LIB:-}
case $archive in
'') prove_here=1 archive=$root/crates/captions/out/libcaptions.a ;;
/*) ;;
*) archive=$PWD/$archive ;;
esac

die() {
    echo "$me: $*" >&2
    exit 1
}

# need PROGRAM PACKAGE
need() {
    command -v "$1" >/dev/null 2>&1 || die "there is no $1; install the package $2"
}

# Everything is made in `work`. What an installation that failed has put elsewhere goes too: `placing` lists its new files, `folders` its new folders.
work=$(mktemp -d)
clean_up() {
    status=$?
    trap '' HUP INT TERM
    if [ -f "$work/placing" ]; then
        while IFS= read -r file; do rm -f "$file"; done <"$work/placing"
        # The last that was made is the deepest. One that holds something by now stays.
        sed -n '1!G;h;$p' "$work/folders" | while IFS= read -r folder; do
            rmdir "$folder" 2>/dev/null || :
        done
    fi
    rm -rf "$work"
    exit "$status"
}
trap clean_up EXIT
trap 'exit 1' HUP INT TERM

digest() {
    sha256sum <"$1" | cut -c 1-64
}

# ---- The machine ----
# The library is x86-64 code. Elsewhere the command is linked by a cross compiler, static, and runs under qemu-x86_64.
look_at_machine() {
    machine=$(uname -m)
    emulator=
    if [ "$machine" = x86_64 ]; then
        compiler=${CC:-cc}
        need "${compiler%% *}" gcc
    else
        compiler=x86_64-linux-gnu-gcc
        need "$compiler" gcc-x86-64-linux-gnu
        need qemu-x86_64 qemu-user
        emulator=$(command -v qemu-x86_64)
    fi
}

# ---- The commit ----
# `head`: the commit, empty where there is no git. `changed`: not empty where a tracked file is not as it is there. `commit`: both in words.
look_at_commit() {
    head=
    changed=
    commit=unknown
    [ -e "$root/.git" ] && command -v git >/dev/null 2>&1 || return 0
    head=$(git -C "$root" rev-parse -q --verify HEAD 2>/dev/null) || { head=; return 0; }
    changed=$(git -C "$root" --no-optional-locks status --porcelain --untracked-files=no) || die "git cannot tell what is changed in $root"
    commit="$head${changed:+ and changes that are not committed}"
}

# ---- The gate ----
passed() {
    printf '%s\n' "$1" | grep -Eqx '[1-9][0-9]* passed, 0 failed'
}

# `gate`: the gate's last line for this commit, from target/gate.txt; empty where it was not run, or tracked files are changed.
look_at_gate() {
    gate=
    [ -n "$head" ] && [ -z "$changed" ] && [ -f "$root/target/gate.txt" ] || return 0
    [ "$(sed -n 1p "$root/target/gate.txt")" = "commit $head" ] || return 0
    gate=$(sed -n 2p "$root/target/gate.txt")
    passed "$gate" || die "target/gate.txt says of this commit: $gate"
}

# ---- The proof ----
# The archive is there behind this: proved and compiled, or as CAPTIONS_LIB gives it.
prove() {
    if [ -n "$prove_here" ]; then
        echo "$me: proving and building the library; some minutes from nothing, half a minute where all is proved" >&2
        "$root/tools/prove-library" || die 'the library is not proved, so that nothing is made'
    fi
    [ -f "$archive" ] || die "there is no archive $archive"
}

# ---- The files ----
# The modes and places of what is installed.
parts() {
    echo '755 bin/captions
644 lib/libcaptions.a
644 include/captions.h
644 lib/pkgconfig/captions.pc
644 share/man/man1/captions.1
644 share/man/man3/libcaptions.3
644 share/captions/manifest'
    [ ! -f "$1/lib/captions/captions-x86-64" ] || echo '755 lib/captions/captions-x86-64'
}

# quoted TEXT: as one word of a shell script.
quoted() {
    printf "'%s'\n" "$(printf '%s\n' "$1" | sed "s/'/'\\\\''/g")"
}

# told NAME: what the built command says of itself.
told() {
    sed -n "s/^$1 //p" "$work/version"
}

# make_parts FOLDER PREFIX GATE [alone]: all files, below FOLDER, for an installation at PREFIX. `alone`: the x86-64 program is bin/captions on every
# machine, since it is not for this one.
make_parts() {
    below=$1
    at=$2
    prove
    # Not with words for the compiler that the manifest does not tell.
    (unset COMMAND_CFLAGS && CAPTIONS_LIB=$archive "$root/tools/build-command" "$work/captions") || die 'the command is not built'
    ${emulator:+"$emulator"} "$work/captions" --version >"$work/version" || die "the command does not run"

    # What the command says of itself stands in the manifest too; so it has to be what is installed beside it.
    sum=$(digest "$archive")
    [ "$(told 'archive sha256')" = "$sum" ] || die "the command has the archive $(told 'archive sha256') in it, and $archive is $sum"
    [ "$(told commit)" = "$commit" ] || die "the command was built from commit $(told commit), and this is $commit"

    for part in bin include lib/pkgconfig share/captions share/man/man1 share/man/man3; do mkdir -p "$below/$part"; done
    cp "$archive" "$below/lib/libcaptions.a"
    [ "$(digest "$below/lib/libcaptions.a")" = "$sum" ] || die "$archive changed meanwhile"
    cp "$root/c/captions.h" "$below/include/captions.h"
    cp "$root/man/captions.1" "$below/share/man/man1/captions.1"
    cp "$root/man/libcaptions.3" "$below/share/man/man3/libcaptions.3"
    sed -e "s|@PREFIX@|$at|" -e "s|@VERSION@|$(told captions)|" "$root/command/captions.pc.in" >"$below/lib/pkgconfig/captions.pc"
    program=bin/captions
    if [ -n "$emulator" ] && [ "${4:-}" != alone ]; then
        program=lib/captions/captions-x86-64
        mkdir -p "$below/lib/captions"
        {
            echo '#!/bin/sh'
            echo '# captions is x86-64 code, and this machine is another: it runs under qemu-x86_64.'
            # shellcheck disable=SC2016
            echo "exec $(quoted "$emulator") $(quoted "$at/$program")"' "$@"'
        } >"$below/bin/captions"
    fi
    cp "$work/captions" "$below/$program"
    {
        echo "version $(told captions)"
        echo "commit $commit"
        kit=$(told kit)
        echo "kit ${kit:-unknown}"
        # CC may hold words.
        # shellcheck disable=SC2086
        echo "compiler $(LC_ALL=C $compiler --version | sed -n 1p)"
        if [ -n "$prove_here" ]; then
            echo 'proof made with this file, by rt lib'
        else
            echo 'proof not made with this file: the archive was given'
        fi
        echo "archive sha256 $sum lib/libcaptions.a"
        echo "header sha256 $(digest "$below/include/captions.h") include/captions.h"
        echo "command sha256 $(digest "$below/bin/captions") bin/captions"
        [ "$program" = bin/captions ] || echo "program sha256 $(digest "$below/$program") $program"
        echo "gate $3"
    } >"$below/share/captions/manifest"
    parts "$below" | while read -r mode path; do chmod "$mode" "$below/$path"; done
}
