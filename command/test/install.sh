#!/bin/sh
# command/test/install.sh [WORK]: tests tools/install, tools/package and the man pages, in the folder WORK (else in one that is removed again).
# Nothing is installed outside of it, and the gate is not run: a copy of the repository has a stand-in for it.
#
# CAPTIONS_LIB=ARCHIVE is the library that is installed; without it tools/prove-library proves and builds it first. CC is the compiler on x86-64.
# A line for each check; the last line counts them, and the status is 1 where one failed.
set -eu
library=${CAPTIONS_LIB:-}
case $library in '' | /*) ;; *) library=$PWD/$library ;; esac
root=$(cd "$(dirname "$0")/../.." && pwd)

die() {
    echo "install.sh: $*" >&2
    exit 1
}

if [ $# -gt 0 ]; then
    mkdir -p "$1/install"
    work=$(cd "$1/install" && pwd)
    find "$work" -mindepth 1 -delete
    # `rt ci` takes no checkout in which another one stands.
    trap 'rm -rf "$work/copy of it" "$work/hidden.git"' EXIT
else
    work=$(mktemp -d)
    trap 'rm -rf "$work"' EXIT
fi
trap 'exit 1' HUP INT TERM
if [ -z "$library" ]; then
    "$root/tools/prove-library" || exit
    library=$root/crates/captions/out/libcaptions.a
fi
[ -f "$library" ] || die "there is no archive $library"
CAPTIONS_LIB=$library
export CAPTIONS_LIB
unset PKG_CONFIG_PATH PKG_CONFIG_LIBDIR PKG_CONFIG_SYSROOT_DIR || :
LC_ALL=C
export LC_ALL

# ---- The machine, as in tools/test-c ----
if [ "$(uname -m)" = x86_64 ]; then
    compiler=${CC:-cc}
    link=
    emulator=
else
    compiler=x86_64-linux-gnu-gcc
    link=-static
    emulator=$(command -v qemu-x86_64) || die 'there is no qemu-x86_64; install the package qemu-user'
fi

# compile WORD..: CC may hold words.
compile() {
    # shellcheck disable=SC2086
    $compiler -std=c11 -O2 -Wall -Wextra -Wpedantic -Werror $link "$@"
}

# start PROGRAM WORD..: one that was built here, as it is or under the emulator. An installed command sees to that itself.
start() {
    ${emulator:+"$emulator"} "$@"
}

# ---- Checks ----
count=0
failed=0
# ok LABEL and bad LABEL: how a check ended. What was said in it stands in $work/said.
ok() {
    count=$((count + 1))
    echo "ok: $1"
}
bad() {
    failed=$((failed + 1))
    echo "FAILED: $1"
    sed 's/^/    /' "$work/said" | head -n 20
}
# check LABEL COMMAND..: a command that has to succeed.
check() {
    label=$1
    shift
    if "$@" >"$work/said" 2>&1; then ok "$label"; else bad "$label"; fi
}
# same LABEL TEXT TEXT: what is, and what has to be.
same() {
    printf 'is:         %s\nhas to be:  %s\n' "$2" "$3" >"$work/said"
    if [ "$2" = "$3" ]; then ok "$1"; else bad "$1"; fi
}
# fails LABEL STATUS TEXT COMMAND..: a command that has to end with this status, and to say this on standard error alone.
fails() {
    label=$1
    status=$2
    text=$3
    shift 3
    ended=0
    "$@" >"$work/printed" 2>"$work/said" || ended=$?
    if [ "$ended" -eq "$status" ] && [ ! -s "$work/printed" ] && grep -qF -e "$text" "$work/said"; then
        ok "$label"
    else
        { echo "status $ended, and has to be $status; to be said: $text"; cat "$work/printed"; } >>"$work/said"
        bad "$label"
    fi
}
# says LABEL TEXT: what the command of the last check said has this text.
says() {
    cp "$work/said" "$work/spoken"
    check "$1" grep -F -e "$2" "$work/spoken"
}
skip() {
    echo "skipped: $1"
}
has() {
    command -v "$1" >/dev/null 2>&1
}
digest() {
    sha256sum <"$1" | cut -c 1-64
}
# value NAME PREFIX: a line of the manifest.
value() {
    sed -n "s/^$1 //p" "$2/share/captions/manifest"
}
# listing FOLDER: all that stands there, with modes, sizes and digests.
listing() {
    (cd "$1" && find . -exec ls -ld {} + | awk '{ print $1, $5, $NF }' | sort && find . -type f -exec sha256sum {} + | sort)
}
files_below() {
    (cd "$1" && find . -type f | sed 's|^\./||' | sort)
}
mode() {
    ls -ld "$1" | cut -c 1-10
}

# ---- An empty folder ----
prefix=$work/prefix
mkdir "$prefix"
expected='bin/captions
include/captions.h
lib/libcaptions.a
lib/pkgconfig/captions.pc
share/captions/manifest
share/man/man1/captions.1
share/man/man3/libcaptions.3'
[ -z "$emulator" ] || expected=$(printf '%s\n' "$expected" lib/captions/captions-x86-64 | sort)
# A umask that takes much away must not show.
check 'tools/install into an empty folder' sh -c 'umask 077 && exec "$1" "$2" >"$3"' sh "$root/tools/install" "$prefix" "$work/printed"
same 'its files are all that there is' "$(files_below "$prefix")" "$expected"
modes=
for file in $(files_below "$prefix"); do
    case $file in
    bin/* | lib/captions/*) wanted=-rwxr-xr-x ;;
    *) wanted=-rw-r--r-- ;;
    esac
    [ "$(mode "$prefix/$file")" = $wanted ] || modes="$modes $file $(mode "$prefix/$file")"
done
same 'the modes of the files' "$modes" ''
same 'the modes of the folders' "$(find "$prefix" -mindepth 1 -type d -exec ls -ld {} + | cut -c 1-10 | sort -u)" drwxr-xr-x
check 'the archive is the one that was given' cmp "$prefix/lib/libcaptions.a" "$library"
check 'the header' cmp "$prefix/include/captions.h" "$root/c/captions.h"
check 'captions.1' cmp "$prefix/share/man/man1/captions.1" "$root/man/captions.1"
check 'libcaptions.3' cmp "$prefix/share/man/man3/libcaptions.3" "$root/man/libcaptions.3"
for file in $expected; do
    grep -q "^  $file\$" "$work/printed" || echo "$file"
done >"$work/untold"
same 'it prints what is installed' "$(cat "$work/untold")" ''
# The line is typed as it is printed.
line=$(sed -n 's/^Try: //p' "$work/printed")
same 'it prints a line to try, which works' "$(sh -c "${line:-false}" 2>&1)" 'priority field line data
0 1 11 94 2C'

# ---- The command ----
captions=$prefix/bin/captions
same 'captions area FILE' "$("$captions" area "$root/crates/cclist/stdin" 2>&1)" 'priority field line data
0 1 11 94 2C'
same 'captions, a word with spaces' "$(printf '' | "$captions" replace -t hex --unit '64 1 0  0 1 11 94 2C' 2>&1)" 000001B2038108ACA4D200
ended=0
printf '\000\000\001\262\003' | "$captions" area >"$work/printed" 2>"$work/said" || ended=$?
same 'captions, a refusal' "$ended $(cat "$work/printed")$(sed -n 1p "$work/said")" '1 refused 5 at 40'

# ---- The manifest ----
head=
commit=unknown
if [ -e "$root/.git" ] && has git && head=$(git -C "$root" rev-parse -q --verify HEAD 2>"$work/said"); then
    commit=$head
    git -C "$root" diff --quiet HEAD -- || commit="$commit and changes that are not committed"
fi
# The kit tells it for the machine that it is on, and further down a stand-in tells another machine.
kit=$(rt version 2>/dev/null) || kit=unknown
same 'manifest, its names' "$(sed 's/ .*//' "$prefix/share/captions/manifest" | tr '\n' ' ')" \
    "version commit kit compiler proof archive header command ${emulator:+program }gate "
version=$("$root/tools/build-command" --version-number)
same 'manifest, version' "$(value version "$prefix")" "$version"
same 'manifest, commit' "$(value commit "$prefix")" "$commit"
same 'manifest, kit' "$(value kit "$prefix")" "$kit"
# shellcheck disable=SC2086
same 'manifest, compiler' "$(value compiler "$prefix")" "$(LC_ALL=C $compiler --version | sed -n 1p)"
same 'manifest, proof' "$(value proof "$prefix")" 'not made with this file: the archive was given'
same 'manifest, archive' "$(value archive "$prefix")" "sha256 $(digest "$library") lib/libcaptions.a"
same 'manifest, header' "$(value header "$prefix")" "sha256 $(digest "$root/c/captions.h") include/captions.h"
same 'manifest, command' "$(value command "$prefix")" "sha256 $(digest "$captions") bin/captions"
# sums PREFIX: looks at all digests of a manifest, by the words of libcaptions.3.
sed -n '/^\.SH FILES/,/^\.SH SEE/p' "$root/man/libcaptions.3" | sed -n '/^\.EX/,/^\.EE/p' |
    sed "/^\\./d; s/\\\\(aq/'/g; s/\\\\-/-/g" >"$work/sums"
sums() {
    (cd "$1" && sh "$work/sums") >"$work/summed" && cat "$work/summed" &&
        [ "$(grep -c ': OK$' "$work/summed")" -eq "$(grep -c ' sha256 ' "$1/share/captions/manifest")" ]
}
# told PREFIX COMMAND: --version and the manifest agree.
told() {
    same "$1: --version and the manifest" "$("$3" --version 2>&1)" "captions $(value version "$2")
commit $(value commit "$2")
archive $(value archive "$2" | cut -d ' ' -f 1,2)
kit $(value kit "$2")"
}
check 'manifest, all digests, in the way of libcaptions.3' sums "$prefix"
told 'installed' "$prefix" "$captions"

# ---- The man pages ----
one=$prefix/share/man/man1/captions.1
three=$prefix/share/man/man3/libcaptions.3
if has groff; then
    for page in "$one" "$three"; do
        groff -man -Tutf8 -ww "$page" >"$work/rendered" 2>"$work/warned" || echo "groff ended with $?" >>"$work/warned"
        [ -s "$work/rendered" ] || echo 'nothing is rendered' >>"$work/warned"
        same "$(basename "$page"), no warning of groff" "$(cat "$work/warned")" ''
    done
else
    skip 'rendering of the man pages (there is no groff)'
fi
same 'no place of a page is still to be filled in' "$(grep -n '@[A-Z]*@' "$one" "$three" "$prefix/lib/pkgconfig/captions.pc" || :)" ''

# What the header declares: the calls and the numbers, without its comments.
# shellcheck disable=SC2086
echo '#include <captions.h>' | $compiler -E -P -I "$prefix/include" - >"$work/declared" || :
calls=$(tr '\n' ' ' <"$work/declared" | grep -o 'captions_[a-z0-9_]* *(' | tr -d ' (' | sort -u)
sed -n '/^\.SH SYNOPSIS/,/^\.SH DESCRIPTION/p' "$three" | grep -v '^\.' >"$work/synopsis"
sed -n '/^\.SH CALLS/,/^\.SH LENT/p' "$three" >"$work/described"
untold=
for call in $calls; do
    grep -q "[ *]$call(" "$work/synopsis" || untold="$untold $call(synopsis)"
    grep -q "^\.BR \\\\%$call ()" "$work/described" || untold="$untold $call(described)"
done
[ -n "$calls" ] || untold=none
same "libcaptions.3 has the $(echo "$calls" | wc -w | tr -d ' ') calls of captions.h" "$untold" ''
# Prototypes that differ from those of the header are no C.
grep -v '^[A-Z][A-Za-z0-9 ,]*$\|^$\|^Link by' "$work/synopsis" >"$work/synopsis.c"
check 'libcaptions.3, its prototypes are those of captions.h' compile -Wno-vla-parameter -fsyntax-only -I "$prefix/include" "$work/synopsis.c"
tr ',{}' '\n\n\n' <"$work/declared" | sed -n 's/^ *\(CAPTIONS_[A-Z0-9_]*\) = \([0-9]*\) *$/\1 \2/p' | sort >"$work/numbers"
awk '
    /^\.B [0-9]+$/ { number = $2; next }
    /^\.BR \\%CAPTIONS_[A-Z0-9_]* :$/ { name = $2; sub(/^\\%/, "", name); if (number != "") print name, number }
    /^\.B \\%CAPTIONS_[A-Z0-9_]*$/ { name = $2; sub(/^\\%/, "", name); size = name; next }
    size != "" { print size, $1 }
    { number = ""; size = "" }
' "$three" | sort >"$work/numbers-told"
[ -s "$work/numbers" ] || echo 'captions.h has none' >"$work/numbers"
check "libcaptions.3 has the $(wc -l <"$work/numbers" | tr -d ' ') numbers of captions.h" diff "$work/numbers" "$work/numbers-told"

# Verbs and options, both ways. The page writes \- for the hyphen of a word.
sed 's/\\-/-/g' "$one" >"$work/one"
"$captions" --help >"$work/help"
verbs=$(sed -n 's/^  \([a-z][a-z0-9-]*\)  *.*/\1/p' "$work/help" | sort)
same 'captions.1 has the verbs of --help, and no other' \
    "$(sed -n '/^\.SH VERBS/,/^\.SH OPTIONS/p' "$work/one" | sed -n '/^\.TP/{n;s/^\.B //p;}' | sort)" "${verbs:-none}"
for verb in $verbs; do "$captions" "$verb" --help; done >>"$work/help"
options=$({ sed -n 's/^ *\(-[a-z]\), \(--[a-z-]*\).*/\1 \2/p; s/^ *\(--[a-z-]*\).*/\1/p' "$work/help" | tr ' ' '\n'; echo '-h
--help
--version'; } | sort -u)
same 'captions.1 has the options of --help, and no other' \
    "$(sed -n '/^\.SH OPTIONS/,/^\.SH HEX/p' "$work/one" | sed -n '/^\.TP/{n;p;}' | grep -o -e '-[-a-z]*[a-z]' | sort -u)" "$options"

# ---- C programs ----
# example PREFIX FOLDER WORD..: README's example, compiled in an empty folder by what pkg-config says, and run.
example() {
    from=$1
    room=$2
    shift 2
    mkdir "$room" && cp "$root/c/examples/area.c" "$room" || return
    # shellcheck disable=SC2046
    (cd "$room" && PKG_CONFIG_PATH=$from/lib/pkgconfig && export PKG_CONFIG_PATH && pkg-config --exists --print-errors captions &&
        compile $(pkg-config "$@" --cflags captions) area.c $(pkg-config "$@" --libs captions) -o area && start ./area >said) &&
        cmp "$room/said" "$root/c/examples/area.expected"
}
# of_page FOLDER: the example of libcaptions.3, in the same way; it prints what the page says that it prints.
of_page() {
    mkdir "$1" || return
    sed -n '/^\.SH EXAMPLES/,/^\.SH FILES/p' "$three" | sed -n '/^\.EX/,/^\.EE/p' | sed 's/\\e/\\/g; s/\\-/-/g' | awk -v folder="$1" '
        /^\.EX/ { block++; next }
        /^\.EE/ { next }
        { print >(folder (block == 1 ? "/page.c" : "/page.expected")) }'
    # shellcheck disable=SC2046
    (cd "$1" && PKG_CONFIG_PATH=$prefix/lib/pkgconfig && export PKG_CONFIG_PATH &&
        compile page.c $(pkg-config --cflags --libs captions) -o page && start ./page <"$root/crates/cclist/stdin" >said) &&
        cmp "$1/said" "$1/page.expected"
}
if has pkg-config; then
    check "README's example is c/examples/area.c" grep -qF c/examples/area.c "$root/README.md"
    check "README's example, by pkg-config" example "$prefix" "$work/example"
    check 'the example of libcaptions.3, by pkg-config' of_page "$work/page"
    same 'pkg-config, the version' "$(PKG_CONFIG_PATH=$prefix/lib/pkgconfig pkg-config --modversion captions 2>&1)" "$(value version "$prefix")"
else
    skip 'the C examples (there is no pkg-config)'
fi

# ---- Installing once more, elsewhere, and in vain ----
listing "$prefix" >"$work/before"
check 'tools/install over an installation' "$root/tools/install" "$prefix"
listing "$prefix" >"$work/after"
check 'it gives the same files again' cmp "$work/before" "$work/after"
check 'tools/install --destdir' "$root/tools/install" /opt/captions --destdir "$work/dest"
same 'its files stand below the folder' "$(files_below "$work/dest")" "$(printf '%s\n' "$expected" | sed 's|^|opt/captions/|')"
same 'its pkg-config file tells PREFIX alone' "$(sed -n 's/^prefix=//p' "$work/dest/opt/captions/lib/pkgconfig/captions.pc")" /opt/captions
check 'tools/install of a folder by a relative path' sh -c 'cd "$1" && "$2" near/by/' sh "$work" "$root/tools/install"
same 'its pkg-config file tells the whole path' "$(sed -n 's/^prefix=//p' "$work/near/by/lib/pkgconfig/captions.pc")" "$work/near/by"

same 'tools/install --help' "$("$root/tools/install" --help 2>&1)" 'usage: tools/install PREFIX [--destdir DIR]'
fails 'tools/install, PREFIX is missing' 2 'usage: tools/install PREFIX' "$root/tools/install"
fails 'tools/install, PREFIX is empty' 2 'PREFIX is empty' "$root/tools/install" ''
fails 'tools/install, two folders' 2 'usage: tools/install PREFIX' "$root/tools/install" "$work/no" "$work/no"
fails 'tools/install, an unknown option' 2 '--dest is no option' "$root/tools/install" --dest "$work/no"
fails 'tools/install, --destdir without a folder' 2 '--destdir has no folder' "$root/tools/install" "$work/no" --destdir
fails 'tools/install, --destdir with a relative path' 2 'begins with /' "$root/tools/install" no --destdir "$work/no"
fails 'tools/install, a space in PREFIX' 2 'a pkg-config file cannot tell' "$root/tools/install" "$work/n o"
: >"$work/file"
fails 'tools/install, PREFIX is a file' 1 'nothing is installed' "$root/tools/install" "$work/file"
fails 'tools/install, PREFIX stands below a file' 1 'nothing is installed' "$root/tools/install" "$work/file/no"
mkdir "$work/half"
: >"$work/half/share"
fails 'tools/install, one of the folders is a file' 1 'nothing is installed' "$root/tools/install" "$work/half"
same 'it leaves nothing there' "$(find "$work/half")" "$work/half
$work/half/share"
if [ "$(id -u)" -ne 0 ]; then
    mkdir "$work/shut"
    chmod 555 "$work/shut"
    fails 'tools/install, PREFIX cannot be written' 1 'nothing is installed' "$root/tools/install" "$work/shut"
else
    skip 'a PREFIX without write permission (root may write everywhere); one below a file was tried'
fi
mkdir -p "$work/taken/share/captions/manifest"
fails 'tools/install, a folder stands where a file goes' 1 'nothing is installed' "$root/tools/install" "$work/taken"
same 'it leaves nothing there, and no folder of its own' "$(find "$work/taken" | sort)" "$work/taken
$work/taken/share
$work/taken/share/captions
$work/taken/share/captions/manifest"
fails 'tools/install, no such archive' 1 'there is no archive' env CAPTIONS_LIB="$work/no.a" "$root/tools/install" "$prefix"
if [ -z "$emulator" ]; then
    fails 'tools/install, no such compiler' 1 'there is no no-such-cc' env CC=no-such-cc "$root/tools/install" "$prefix"
fi
listing "$prefix" >"$work/after"
check 'an installation is as it was behind one that failed' cmp "$work/before" "$work/after"
same 'no installation that failed made a folder' "$(find "$work" -maxdepth 1 \( -name no -o -name 'n o' \))" ''

# ---- A copy of the repository, with stand-ins ----
# git_in FOLDER WORD..: git, without what the user has set for commits.
git_in() {
    folder=$1
    shift
    git -C "$folder" -c user.name=test -c user.email=test@invalid -c commit.gpgsign=false -c core.hooksPath=/dev/null "$@"
}
# Packages are made twice: in this folder, and in a copy elsewhere with the same commit, with another time zone, umask and words for the compiler.
copied() {
    git clone -q --no-hardlinks "$root" "$work/copy of it" || return
    git_in "$work/copy of it" checkout -q --detach "$head" || return
    (cd "$root" && find . -mindepth 1 -maxdepth 1 ! -name .git ! -name target) | while IFS= read -r entry; do
        rm -rf "$work/copy of it/$entry"
        (cd "$root" && tar -c --exclude='./crates/*/out' "$entry") | tar -xp -C "$work/copy of it"
    done
}
copy="$work/copy of it"
debian=1
missing=
for tool in git readelf gzip dpkg-deb; do has $tool || missing="there is no $tool"; done
[ -n "$missing" ] || [ -n "$head" ] || missing="git knows no commit of $root"
if [ -n "$missing" ]; then
    skip "the Debian package, the gate, and stand-ins for prover and machine ($missing)"
    debian=
fi
if [ -n "$debian" ]; then
    printf 'something\n12 passed, 0 failed\n' >"$work/gate.log"
    check 'a copy of the repository elsewhere' copied
    check 'tools/package' "$root/tools/package" "$work/package 1" --gate "$work/gate.log"
    check 'tools/package in the copy' env TZ=Asia/Tokyo COMMAND_CFLAGS=-g sh -c 'umask 077 && exec "$@"' sh \
        "$copy/tools/package" --gate "$work/gate.log" "$work/package 2"
    name=$(ls "$work/package 1")
    same 'the same name' "$(ls "$work/package 2")" "$name"
    behind=$(echo "$head" | cut -c 1-12)
    case $commit in *changes*) behind=$behind.changed ;; esac
    same 'the name tells version and commit' "$name" "captions_$version+g${behind}_amd64.deb"
    check 'the same bytes' cmp "$work/package 1/$name" "$work/package 2/$name"
    check 'dpkg-deb -x' dpkg-deb -x "$work/package 1/$name" "$work/unpacked"
    same 'the files of the package' "$(files_below "$work/unpacked")" 'usr/bin/captions
usr/include/captions.h
usr/lib/libcaptions.a
usr/lib/pkgconfig/captions.pc
usr/share/captions/manifest
usr/share/doc/captions/copyright
usr/share/man/man1/captions.1.gz
usr/share/man/man3/libcaptions.3.gz'
    modes=$(dpkg-deb -c "$work/package 1/$name" | awk '
        { wanted = "-rw-r--r--" }
        /\/$/ { wanted = "drwxr-xr-x" }
        $6 == "./usr/bin/captions" { wanted = "-rwxr-xr-x" }
        $6 == "./usr/share/doc/captions/manifest" { wanted = "lrwxrwxrwx" }
        $1 != wanted || $2 != "root/root"')
    same 'their modes and owners' "$modes" ''
    dpkg-deb --fsys-tarfile "$work/package 1/$name" | TZ=UTC0 tar -tv --full-time >"$work/times"
    same 'the times are those of the commit' "$(awk '{ print $4, $5 }' "$work/times" | sort -u)" \
        "$(TZ=UTC0 git -C "$root" log -1 --format=%cd --date=format-local:'%Y-%m-%d %H:%M:%S')"
    usr=$work/unpacked/usr
    same 'the manual of the command in it' "$(gzip -dc "$usr/share/man/man1/captions.1.gz" | cksum)" "$(cksum <"$root/man/captions.1")"
    same 'the manual of the library in it' "$(gzip -dc "$usr/share/man/man3/libcaptions.3.gz" | cksum)" "$(cksum <"$root/man/libcaptions.3")"
    check 'the manifest stands beside the copyright too' cmp "$usr/share/doc/captions/manifest" "$usr/share/captions/manifest"
    same 'the manifest, the gate' "$(value gate "$usr")" '12 passed, 0 failed'
    same 'the manifest, the commit' "$(value commit "$usr")" "$commit"
    check 'the manifest, all digests' sums "$usr"
    # The command of the package is for x86-64, and stands alone.
    if [ -z "$emulator" ]; then
        told 'package' "$usr" "$usr/bin/captions"
        check 'the command of the package is the installed one' cmp "$usr/bin/captions" "$captions"
    fi
    same 'the pkg-config file is for /usr' "$(sed -n 's/^prefix=//p' "$usr/lib/pkgconfig/captions.pc")" /usr
    if has pkg-config; then check "README's example, by the package" example "$usr" "$work/example-usr" "--define-variable=prefix=$usr"; fi
    md5() {
        dpkg-deb -e "$work/package 1/$name" "$work/control" && (cd "$work/unpacked" && md5sum -c "$work/control/md5sums") &&
            [ "$(wc -l <"$work/control/md5sums")" -eq "$(files_below "$work/unpacked" | wc -l)" ]
    }
    check 'md5sums has all files' md5

    # refused LABEL LINE: a gate log that ends so.
    refused() {
        printf 'something\n%s' "$2" >"$work/gate.log"
        fails "tools/package, the gate log ends: $1" 1 'nothing is packed' "$root/tools/package" "$work/no" --gate "$work/gate.log"
    }
    refused 'one failed' '12 passed, 1 failed
'
    refused 'none passed' '0 passed, 0 failed
'
    refused 'ten failed' '12 passed, 10 failed
'
    refused 'another line' '12 passed, 0 failed
rt: terminated
'
    refused 'an empty line' '12 passed, 0 failed

'
    refused 'no number' ' passed, 0 failed
'
    : >"$work/empty.log"
    fails 'tools/package, the gate log is empty' 1 'nothing is packed' "$root/tools/package" "$work/no" --gate "$work/empty.log"
    fails 'tools/package, there is no gate log' 1 'there is no file' "$root/tools/package" "$work/no" --gate "$work/no.log"
    fails 'tools/package, --gate without a file' 2 'usage: tools/package' "$root/tools/package" "$work/no" --gate
    fails 'tools/package, an unknown option' 2 'usage: tools/package' "$root/tools/package" --no
    fails 'tools/package, two folders' 2 'usage: tools/package' "$root/tools/package" "$work/no" "$work/no"
    printf '12 passed, 0 failed\n' >"$work/gate.log"
    fails 'tools/package, the folder cannot be made' 1 'cannot make the folder' "$root/tools/package" "$work/file/no" --gate "$work/gate.log"
    # What the script needs before it looks for dpkg-deb, and nothing else.
    mkdir "$work/bare"
    for tool in sh dirname mktemp rm; do ln -s "$(command -v $tool)" "$work/bare"; done
    fails 'tools/package, there is no dpkg-deb' 1 'no dpkg-deb; install the package dpkg' env PATH="$work/bare" "$root/tools/package" "$work/no"
    same 'what was refused made no package' "$(find "$work" -maxdepth 1 -name no)" ''

    # ---- The gate, by a stand-in for tools/test that counts how often it runs ----
    cat >"$copy/tools/test" <<'EOF'
#!/bin/sh
cd "$(dirname "$0")/.." && rm -rf target && mkdir target || exit
echo ran >>../gate-ran
echo 'the stand-in says a word'
cat ../gate-line
exit "$(cat ../gate-status)"
EOF
    chmod +x "$copy/tools/test"
    : >"$work/gate-ran"
    git_in "$copy" add -A
    git_in "$copy" commit -q -m 'a stand-in for the gate'
    head=$(git -C "$copy" rev-parse HEAD)
    ran() {
        wc -l <"$work/gate-ran" | tr -d ' '
    }
    gate_says() {
        echo "$1" >"$work/gate-line"
        echo "$2" >"$work/gate-status"
    }
    # packed: the gate line in the package that tools/package made last.
    packed() {
        rm -rf "$work/packed"
        dpkg-deb -x "$(sed -n '$p' "$work/printed")" "$work/packed" && value gate "$work/packed/usr"
    }
    package() {
        "$copy/tools/package" "$@" >"$work/printed"
    }
    check 'tools/install where the gate was not run' "$copy/tools/install" "$work/ungated"
    same 'its manifest' "$(value gate "$work/ungated")" 'not run for this commit in this folder'
    gate_says '11 passed, 1 failed' 1
    fails 'tools/package runs the gate, which fails' 1 'nothing is packed' "$copy/tools/package"
    says 'what the gate says is shown' 'the stand-in says a word'
    gate_says '11 passed, 0 failed' 1
    fails 'tools/package, a gate that fails although its last line does not say so' 1 'nothing is packed' "$copy/tools/package"
    gate_says 'all is well' 0
    fails 'tools/package, a gate that does not say how it ended' 1 'nothing is packed' "$copy/tools/package"
    same 'these left no package, and no gate.txt' "$(ls "$copy/target")" ''
    same 'the gate was run each time' "$(ran)" 3
    gate_says '34 passed, 0 failed' 0
    check 'tools/package, a gate that passes' package
    same 'its manifest' "$(packed)" '34 passed, 0 failed'
    same 'its commit' "$(value commit "$work/packed/usr")" "$head"
    same 'the package stands in target/package' "$(ls "$copy/target/package")" "captions_$version+g$(echo "$head" | cut -c 1-12)_amd64.deb"
    same 'target/gate.txt' "$(cat "$copy/target/gate.txt")" "commit $head
34 passed, 0 failed"
    check 'tools/package once more' package
    same 'the gate is not run again' "$(ran)" 4
    same 'its manifest' "$(packed)" '34 passed, 0 failed'
    check 'tools/install behind the gate' "$copy/tools/install" "$work/gated"
    same 'its manifest' "$(value gate "$work/gated")" '34 passed, 0 failed'

    echo '# changed' >>"$copy/tools/installing.sh"
    check 'tools/install of changed files' "$copy/tools/install" "$work/gated"
    same 'its manifest, the gate' "$(value gate "$work/gated")" 'not run for this commit in this folder'
    same 'its manifest, the commit' "$(value commit "$work/gated")" "$head and changes that are not committed"
    told 'of changed files' "$work/gated" "$work/gated/bin/captions"
    cp "$copy/target/gate.txt" "$work/kept"
    check 'tools/package of changed files' package "$work/changed"
    same 'the gate is run again' "$(ran)" 5
    same 'its version tells the changes' "$(ls "$work/changed")" "captions_$version+g$(echo "$head" | cut -c 1-12).changed_amd64.deb"
    same 'and no target/gate.txt is written for a commit that did not pass' "$(ls "$copy/target")" ''
    git_in "$copy" commit -q -a -m 'changed'
    cp "$work/kept" "$copy/target/gate.txt"
    check 'tools/install, target/gate.txt is of another commit' "$copy/tools/install" "$work/gated"
    same 'its manifest' "$(value gate "$work/gated")" 'not run for this commit in this folder'
    printf 'commit %s\n12 passed, 3 failed\n' "$(git -C "$copy" rev-parse HEAD)" >"$copy/target/gate.txt"
    fails 'tools/install, target/gate.txt says that it failed' 1 '12 passed, 3 failed' "$copy/tools/install" "$work/gated"
    fails 'tools/package, target/gate.txt says that it failed' 1 '12 passed, 3 failed' "$copy/tools/package" "$work/changed"
    rm "$copy/target/gate.txt"
    cp "$copy/tools/test" "$work/test"
    printf '\ncd "$(dirname "$0")/.." && echo >>tools/run\n' >"$work/more"
    { sed '$d' "$work/test"; cat "$work/more"; } >"$copy/tools/test"
    git_in "$copy" commit -q -a -m 'a gate that changes a file'
    fails 'tools/package, the repository changes meanwhile' 1 'the repository changed' "$copy/tools/package" "$work/changed"
    git_in "$copy" checkout -q -f

    # ---- A folder that is no repository ----
    mv "$copy/.git" "$work/hidden.git"
    check 'tools/install without git' env GIT_CEILING_DIRECTORIES="$work" "$copy/tools/install" "$work/no-git"
    same 'its manifest' "$(value commit "$work/no-git")" unknown
    told 'without git' "$work/no-git" "$work/no-git/bin/captions"
    fails 'tools/package without git' 1 'no git repository' env GIT_CEILING_DIRECTORIES="$work" \
        "$copy/tools/package" "$work/changed" --gate "$work/gate.log"
    mv "$work/hidden.git" "$copy/.git"

    # ---- A disk that is full, by a stand-in for cp: the last of the files cannot be written ----
    mkdir "$work/full"
    cat >"$work/full/cp" <<EOF
#!/bin/sh
case \$2 in '$prefix/share/captions/'*) echo 'cp: there is no space left' >&2; exit 1 ;; esac
exec '$(command -v cp)' "\$@"
EOF
    chmod +x "$work/full/cp"
    fails 'tools/install, no space for the last file' 1 'nothing is installed' env PATH="$work/full:$PATH" "$copy/tools/install" "$prefix"
    listing "$prefix" >"$work/after"
    check 'all files are still those of the installation before' cmp "$work/before" "$work/after"
    check 'and with space they are replaced' "$copy/tools/install" "$prefix"
    same 'by those of the other commit' "$("$captions" --version | sed -n 's/^commit //p')" "$(git -C "$copy" rev-parse HEAD)"

    # ---- The proof, by a stand-in for rt ----
    mkdir "$work/bin"
    cat >"$work/bin/rt" <<EOF
#!/bin/sh
case \$1 in
lib)
    [ ! -f '$work/unproved' ] || { echo 'error: lists is not proved'; exit 1; }
    echo 'crate lists: modules loaded=0 checked=40'
    echo 'logic=proved functions=3'
    case \$PWD in */crates/captions) mkdir -p out && cp '$library' out/libcaptions.a ;; *) exit 2 ;; esac
    ;;
version) echo '$kit' ;;
*) exit 2 ;;
esac
EOF
    chmod +x "$work/bin/rt"
    check 'tools/install proves first' env -u CAPTIONS_LIB PATH="$work/bin:$PATH" sh -c '"$@" 2>&1 >/dev/null' sh "$copy/tools/install" "$work/proved"
    says 'it says how far it is, on standard error' 'lists proved, 1 of '
    same 'its manifest, proof' "$(value proof "$work/proved")" 'made with this file, by rt lib'
    # The archive of the proof before is still there, and must not be taken.
    : >"$work/unproved"
    fails 'tools/install, the proof fails' 1 'lists is not proved' env -u CAPTIONS_LIB PATH="$work/bin:$PATH" "$copy/tools/install" "$work/no"
    same 'and nothing is installed' "$(find "$work" -maxdepth 1 -name no)" ''

    # ---- Another machine, by stand-ins for uname and for qemu-x86_64 ----
    if [ -n "$emulator" ]; then
        skip 'a stand-in for another machine (this is one)'
    elif ! has x86_64-linux-gnu-gcc; then
        skip 'a stand-in for another machine (there is no x86_64-linux-gnu-gcc)'
    else
        cat >"$work/bin/uname" <<EOF
#!/bin/sh
[ "\$*" = -m ] && echo aarch64 || exec '$(command -v uname)' "\$@"
EOF
        arm_emulator=$work/bin/qemu-x86_64
        chmod +x "$work/bin/uname"
        arm=$work/arm
        if has qemu-x86_64; then
            skip 'Arm, there is no emulator (this machine has qemu-x86_64)'
        else
            fails 'Arm, there is no emulator' 1 'there is no qemu-x86_64' env PATH="$work/bin:$PATH" "$root/tools/install" "$work/no"
        fi
        printf '#!/bin/sh\necho ran >>"%s/emulated"\nexec "$@"\n' "$work" >"$arm_emulator"
        chmod +x "$arm_emulator"
        check 'Arm, tools/install' env PATH="$work/bin:$PATH" "$root/tools/install" "$arm"
        cp "$work/said" "$work/arm-said"
        check 'Arm, it says which compiler it takes' grep 'cross-compiled with x86_64-linux-gnu-gcc' "$work/arm-said"
        check 'Arm, it says that the emulator runs the command' grep -F "x86-64 code under $arm_emulator" "$work/arm-said"
        same 'Arm, the files' "$(files_below "$arm")" "$(printf '%s\n' "$expected" lib/captions/captions-x86-64 | sort)"
        same 'Arm, their modes' "$(mode "$arm/bin/captions") $(mode "$arm/lib/captions/captions-x86-64")" '-rwxr-xr-x -rwxr-xr-x'
        same 'Arm, bin/captions is a script' "$(sed -n 1p "$arm/bin/captions")" '#!/bin/sh'
        same 'Arm, the program is static' "$(readelf -d "$arm/lib/captions/captions-x86-64" 2>/dev/null | grep -c NEEDED)" 0
        check 'Arm, the program is x86-64 code' sh -c 'readelf -h "$1" | grep -q X86-64' sh "$arm/lib/captions/captions-x86-64"
        rm -f "$work/emulated"
        same 'Arm, captions area FILE' "$("$arm/bin/captions" area "$root/crates/cclist/stdin" 2>&1)" 'priority field line data
0 1 11 94 2C'
        check 'Arm, by the emulator' cmp "$work/emulated" - <<EOF
ran
EOF
        same 'Arm, a word with spaces' "$(printf '' | "$arm/bin/captions" replace -t hex --unit '64 1 0  0 1 11 94 2C' 2>&1)" 000001B2038108ACA4D200
        told Arm "$arm" "$arm/bin/captions"
        same 'Arm, the manifest has the digests of both' "$(value command "$arm" | cut -d ' ' -f 3) $(value program "$arm" | cut -d ' ' -f 3)" \
            'bin/captions lib/captions/captions-x86-64'
        check 'Arm, all digests are right' sums "$arm"
        check 'Arm, tools/package' env PATH="$work/bin:$PATH" "$root/tools/package" "$work/package arm" --gate "$work/gate.log"
        check 'Arm, its package unpacked' dpkg-deb -x "$work/package arm/$name" "$work/unpacked-arm"
        check 'Arm, the command in it is the static program' cmp "$work/unpacked-arm/usr/bin/captions" "$arm/lib/captions/captions-x86-64"
        same 'Arm, it needs no other package' "$(dpkg-deb -f "$work/package arm/$name" Depends)" ''
        check 'Arm, all digests of the package' sums "$work/unpacked-arm/usr"
    fi
fi

echo
if [ $failed -gt 0 ]; then
    echo "install.sh: $failed FAILED, $count passed"
    exit 1
fi
echo "install.sh: all $count checks passed"
