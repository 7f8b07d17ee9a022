#!/bin/sh
# command/test/reproducible.sh [--from-nothing] [WORK]: builds the archive and the command twice, in two folders, and compares their digests. The
# folders stand in WORK, else in one that is removed again: some GB at a time.
#
# Without --from-nothing the folders are copies of this one, without what rt keeps in it. In each the machine code of the whole library is made anew.
# Not done anew: proofs, and the translation of the crates below captions, that this checkout or another one on this machine keeps of the same files,
# since rt looks there.
#
# --from-nothing takes two clones of the commit, each with a kit of its own (tools/own-kit), beside which nothing is kept: all is proved, translated and
# compiled in each. Changes that are not committed are not in the clones.
#
# Both ways the command is then compiled in each folder. The second folder has a longer name, another umask and another time zone. Where an archive is
# there already, given by CAPTIONS_LIB or in crates/captions/out, it is compared with them. The last line counts the checks, and the status is 1 where
# one failed.
set -eu
given=${CAPTIONS_LIB:-}
case $given in '' | /*) ;; *) given=$PWD/$given ;; esac
unset CAPTIONS_LIB
root=$(cd "$(dirname "$0")/../.." && pwd)
archive=crates/captions/out/libcaptions.a
[ -n "$given" ] || given=$root/$archive

die() {
    echo "reproducible.sh: $*" >&2
    exit 1
}

nothing=
if [ "${1:-}" = --from-nothing ]; then
    nothing=1
    shift
fi
case $#${1:-} in 0 | 1[!-]*) ;; *) echo 'usage: command/test/reproducible.sh [--from-nothing] [WORK]' >&2; exit 2 ;; esac
command -v rt >/dev/null || die 'there is no rt on the path: the Rattle kit builds the archive'
if [ $# -eq 1 ]; then
    mkdir -p "$1/reproducible"
    work=$(cd "$1/reproducible" && pwd)
    find "$work" -mindepth 1 -delete
else
    work=$(mktemp -d)
fi
# The copies are large, and nothing in them is worth a look.
trap 'rm -rf "$work"' EXIT
trap 'exit 1' HUP INT TERM

if [ -n "$nothing" ]; then
    command -v git >/dev/null || die 'there is no git to clone the repository'
fi

# The files as they are now: both folders get these, whatever is edited meanwhile.
sources() {
    if [ -n "$nothing" ]; then
        git clone -q --no-hardlinks "$root" "$work/sources" &&
            git -C "$work/sources" -c advice.detachedHead=false checkout -q "$(git -C "$root" rev-parse HEAD)"
    else
        mkdir "$work/sources" && (cd "$root" && tar -c --exclude=./target --exclude='./crates/*/out' .) | tar -xp -C "$work/sources"
    fi
}

# folder NAME: a new folder with these files.
folder() {
    mkdir -p "$1" && cp -Rp "$work/sources/." "$1"
}

count=0
failed=0
# same LABEL FILE FILE: two files, by their digests.
same() {
    one=$(sha256sum <"$2" | cut -c 1-64)
    two=$(sha256sum <"$3" | cut -c 1-64)
    if [ -s "$2" ] && [ "$one" = "$two" ]; then
        count=$((count + 1))
        echo "ok: $1: $one"
    else
        failed=$((failed + 1))
        echo "FAILED: $1: $one and $two"
        cmp "$2" "$3" || :
    fi
}

# build FOLDER NAME: makes it, builds in it, keeps the archive and the command, and removes it.
build() {
    folder "$1" || die "cannot make the folder $1"
    [ ! -e "$1/$archive" ] || die "there is an archive in $1 before it is built"
    if [ -n "$nothing" ]; then
        mkdir "$work/$2.kit" && "$root/tools/own-kit" "$work/$2.kit/kit" || die 'there is no kit of its own'
        PATH=$work/$2.kit/kit/bin:$PATH
        export PATH
    fi
    (cd "$1" && tools/prove-library && CAPTIONS_LIB=$archive tools/build-command "$work/$2.command") || die "nothing is built in $1"
    cp "$1/$archive" "$work/$2.a" || die "there is no archive in $1"
    rm -rf "$1" "$work/$2.kit"
}

sources || die 'the files of this folder are not copied'
if [ -n "$nothing" ]; then
    echo 'reproducible.sh: building the first of two, from nothing'
else
    echo 'reproducible.sh: building the first of two, with what is proved on this machine'
fi
(umask 022 && TZ=UTC0 && export TZ && build "$work/a" first) || exit
echo 'reproducible.sh: building the second'
(umask 077 && TZ=Asia/Tokyo && export TZ && build "$work/another/folder/with/a/longer/name" second) || exit
same 'the archive, built in two folders' "$work/first.a" "$work/second.a"
same 'the command, built in two folders' "$work/first.command" "$work/second.command"
if [ -f "$given" ]; then
    same "the archive $given, and the one that was built" "$given" "$work/first.a"
else
    echo "skipped: an archive that was built before (there is no $given)"
fi

echo
if [ $failed -gt 0 ]; then
    echo "reproducible.sh: $failed FAILED, $count passed"
    exit 1
fi
echo "reproducible.sh: all $count checks passed"
