#!/usr/bin/perl
# command/test/standins.pl COMMAND [PROGRAMS] [WORD..]: the drivers beside commands that are wrong on purpose. Each stands in for the command: a script
# that runs it and makes one thing wrong. Each driver that is named with it has to notice. Two that are wrong in nothing have to pass by all drivers,
# so that no driver notices a script for being one. PROGRAMS is the folder of the Rattle programs, for the driver that compares with these.
use strict;
use warnings;
use Cwd qw(abs_path);
use FindBin;
use lib $FindBin::Bin;
use Run;

my $command = begin('standins');
my ($programs) = words_left();
$programs = abs_path($programs) if defined $programs;
chdir "$FindBin::Bin/../.." or die "the root of the repository: $!\n";
my $work = work();
my $kept = "$work/kept";
mkdir $kept or die "$kept: $!\n";

# Each driver by a short name: a part of the vectors, one section of the hostile cases, or all.
my @vectors = ('vectors', '--every', 15);
sub driver {
    my ($name) = @_;
    return [@vectors] if $name eq 'vectors';
    return ['vectors', '--every', 1, "vectors/$1"] if $name =~ /\Avectors:(.+)\z/;
    return ['hostile', $1] if $name =~ /\Ahostile:(.+)\z/;
    return ['help'] if $name eq 'help';
    return ['programs', $programs, '--every', 15] if $name eq 'programs';
    die "no driver $name\n";
}

# What a script begins and ends with: the command is run, and what it printed, said and answered is kept; then it goes out. $verb is the verb, $to the
# file of -o.
my $begin = <<'END_OF_TEXT';
verb=${1:-}
to=
before=
for word; do
    case $before in -o | --output) to=$word ;; esac
    case $word in --output=*) to=${word#--output=} ;; esac
    before=$word
done
END_OF_TEXT
my $run = $begin . <<'END_OF_TEXT';
status=0
"$real" "$@" >"$kept/out" 2>"$kept/err" || status=$?
END_OF_TEXT
my $end = <<'END_OF_TEXT';
cat "$kept/out"
cat "$kept/err" >&2
exit "$status"
END_OF_TEXT

# after SH: the command, then something else, and only then what it printed, said and answered goes out. changes SED and says SED: with what it printed,
# or what it said, changed by sed.
sub after   { return "$run$_[0]\n$end" }
sub changes { return after(qq{sed -E '$_[0]' "\$kept/out" >"\$kept/other" && mv "\$kept/other" "\$kept/out"}) }
sub says    { return after(qq{sed -E '$_[0]' "\$kept/err" >"\$kept/other" && mv "\$kept/other" "\$kept/err"}) }

# ---- Two that are right ----
my @all = qw(vectors vectors:film-ours.txt vectors:reel-ours.txt hostile:written hostile:links hostile:unit_words hostile:film hostile:reel hostile:hex
    hostile:closed hostile:wrong_words hostile:wrong_values hostile:late help);
push @all, 'programs' if defined $programs;
right('the command itself', 'exec "$real" "$@"', @all);
# Through files the streams cannot be told apart from closed or full ones, so that these sections are left out.
right('the command through files', after(':'), grep { !/hostile:(?:closed|late)/ } @all);

# ---- What is printed ----
my $bytes = '[0-9A-F]{2} [0-9A-F]{2}';
wrong('field 1 for 2, and 2 for 1', changes("s/^([0-3]) 1 ([0-9]+ $bytes)\$/\\1 x \\2/; s/^([0-3]) 2 ([0-9]+ $bytes)\$/\\1 1 \\2/; s/^([0-3]) x /\\1 2 /"),
    'vectors', defined $programs ? 'programs' : ());
wrong('the two bytes of a construct the other way round', changes('s/^([0-3] [1-3] [0-9]+) ([0-9A-F]{2}) ([0-9A-F]{2})$/\1 \3 \2/'), 'vectors', 'help');
wrong('the fields of an access unit the other way round', changes('s/^([01]) ([01]) ([0-9]+) (..) (..) (..) (..)$/\2 \1 \3 \6 \7 \4 \5/'),
    'vectors:film-ours.txt', 'vectors:reel-ours.txt', 'hostile:film');
wrong('the last record left out', changes('3,$ { $ d; }'), 'vectors', 'vectors:reel-ours.txt');
wrong('hex digits in lower case', changes('s/[A-F]/\L&/g'), 'vectors', 'help');
wrong('the first letter of a listing in upper case', changes('1 s/^[a-z]/\U&/'), 'vectors', 'help');
wrong('a space behind each line', changes('s/$/ /'), 'vectors', 'help');
wrong('spaces in JSON', changes('s/":/": /g'), 'vectors');
wrong('no z in JSON', changes('s/,"z":[0-9]+//'), 'vectors');
wrong('n one too high in JSON', changes('s/"n":0,/"n":1,/'), 'vectors');
wrong('what waits left out', changes('/^waiting|"waiting"/ d'), 'vectors:film-ours.txt', 'hostile:film');
wrong('the last byte cut off', after(q{size=$(wc -c <"$kept/out")
    if [ "$size" -gt 0 ]; then head -c "$((size - 1))" "$kept/out" >"$kept/other"; mv "$kept/other" "$kept/out"; fi}), 'vectors', 'help');
wrong('a line feed too many', after(q{[ "$status" -ne 0 ] || echo >>"$kept/out"}), 'vectors', 'help');

# ---- What is said, and the status ----
wrong('always status 0', after('status=0'), 'vectors', 'hostile:film', 'hostile:wrong_words');
wrong('status 1 for wrong use', after('[ $status -ne 2 ] || status=1'), 'hostile:wrong_words', 'hostile:hex', 'hostile:reel');
wrong('status 1 for a failure', after('[ $status -ne 3 ] || status=1'), 'hostile:unread', 'hostile:full');
wrong('status 0 for a failure', after('[ $status -ne 3 ] || status=0'), 'hostile:unread', 'hostile:full');
wrong('nothing said of a failure', after('[ $status -ne 3 ] || : >"$kept/err"'), 'hostile:unread', 'hostile:full');
wrong('a refusal on standard output', after(q{[ $status -ne 1 ] || mv "$kept/err" "$kept/out"; : >>"$kept/err"}), 'vectors', 'hostile:film');
wrong('a refusal on standard output too', after('[ $status -ne 1 ] || cp "$kept/err" "$kept/out"'), 'vectors', 'hostile:film');
wrong('a place one too high', after(q{awk '/^refused/ { $4 = $4 + 1 } { print }' "$kept/err" >"$kept/other" && mv "$kept/other" "$kept/err"}),
    'vectors', 'hostile:film');
wrong('5 for 26', says('s/^refused 26 /refused 5 /'), 'vectors:multi-ours.txt');
wrong('a refusal without its words', says('/^captions: / d'), 'vectors', 'hostile:unread');
wrong('the words of one number for another', says('/^refused 18 /,$ s/^(captions: [^:]*): .*/\1: the input ends before an item is complete (bits)/'),
    'vectors');
wrong('a refusal without the name of its input', says('s/^captions: [^:]*: /captions: /'), 'vectors', 'hostile:unread');
wrong('a line of film one too high', after(q{awk '/^captions: / && match($0, /:[0-9]+:/) {
        $0 = substr($0, 1, RSTART) (substr($0, RSTART + 1, RLENGTH - 2) + 1) substr($0, RSTART + RLENGTH - 1)
    } { print }' "$kept/err" >"$kept/other" && mv "$kept/other" "$kept/err"}), 'vectors:film-ours.txt', 'hostile:film', 'hostile:hex');
wrong('words where all is well', after('[ $status -ne 0 ] || echo captions: well >"$kept/err"'), 'vectors', 'help');
wrong('status 99 and a report, as of a sanitizer', after(q{[ "$verb" != multi ] || { echo '==1==ERROR: AddressSanitizer' >"$kept/err"; status=99; }}),
    'vectors', 'hostile:plain');
wrong('an end by a signal', 'case ${1:-} in pes) kill -SEGV $$ ;; esac; exec "$real" "$@"', 'vectors', 'hostile:plain');

# ---- -o ----
wrong('a file left beside -o', after('[ -z "$to" ] || : >"$to.new"'), 'vectors', 'hostile:written');
wrong('a file left beside -o by a refusal', after('[ -z "$to" ] || [ $status -eq 0 ] || : >"$to.new"'), 'vectors', 'hostile:written');
wrong('-o begun before the answer is known', qq{$begin\n[ -z "\$to" ] || [ -d "\$to" ] || : >"\$to"\n$run$end}, 'hostile:written');
wrong('-o without its last byte', after(q{if [ -n "$to" ] && [ -s "$to" ]; then
        head -c "$(($(wc -c <"$to") - 1))" "$to" >"$kept/other"; cat "$kept/other" >"$to"; fi}), 'vectors', 'hostile:written');
wrong('the permissions of -o not kept', after('[ -z "$to" ] || [ ! -f "$to" ] || chmod 600 "$to"'), 'hostile:written', 'hostile:links');
wrong('a link of -o replaced', after(q{if [ -n "$to" ] && [ -L "$to" ] && [ -f "$to" ]; then
        cp "$to" "$kept/other"; rm "$to"; cp "$kept/other" "$to"; fi}), 'hostile:links');

# ---- Words and input ----
wrong('little taken for big', arguments('[ "$word" != little ] || word=big'), 'vectors', 'hostile:plain');
wrong('numbers of a unit cut to eight bits', arguments(q{case $before in --unit | -u)
        word=$(printf '%s' "$word" | awk '{ for (i = 1; i <= NF; i++) if ($i ~ /^[0-9][0-9][0-9]+$/) $i = $i % 256; print }') ;;
    esac}), 'hostile:unit_words', 'vectors');
wrong('--each always', q{case ${1:-} in film)
        shift; for word; do [ "$word" != --each ] || exec "$real" film "$@"; done; exec "$real" film --each "$@" ;;
    esac; exec "$real" "$@"}, 'vectors:film-ours.txt', 'hostile:film');
wrong('--each never', arguments('[ "$word" != --each ] || continue'), 'vectors:film-ours.txt', 'hostile:film');
wrong('--flags left out', arguments('case $before in --flags) word=00 ;; esac; case $word in --flags=*) word=--flags=00 ;; esac'),
    'vectors:reel-ours.txt', 'hostile:reel');
wrong('unknown options passed over', arguments('case $word in --bogus | -x) continue ;; esac'), 'hostile:wrong_words');
wrong('the last of two options taken', arguments('case $word in --json) [ -z "${json:-}" ] || continue; json=1 ;; esac'), 'hostile:wrong_words');
wrong('input of 16,384 bytes at most', 'case " $* " in *" /"*) exec "$real" "$@" ;; esac; head -c 16384 | "$real" "$@"', 'hostile:noise');
wrong('a pipe that is late taken for ended', q{case ${1:-} in area)
        perl -MFcntl -e 'fcntl STDIN, F_SETFL, O_NONBLOCK; sysread STDIN, $in, 65536; print $in // ""' | "$real" "$@" ;;
    *) exec "$real" "$@" ;; esac}, 'hostile:late');

# ---- Help ----
wrong('help without its example', after(q{sed -n '/^Example:/ q; p' "$kept/out" >"$kept/other" && mv "$kept/other" "$kept/out"}), 'help');
wrong('an example that prints something else', after(q{case $* in 'area --help' | 'area -h')
        sed '$ s/C$/D/' "$kept/out" >"$kept/other"; mv "$kept/other" "$kept/out" ;;
    esac}), 'help');
wrong('three lines of --version', after(q{[ "$verb" != --version ] || { head -n 3 "$kept/out" >"$kept/other"; mv "$kept/other" "$kept/out"; }}), 'help');
my $digest = sub { after(qq{[ "\$verb" != --version ] || { sed 's/$_[0]/' "\$kept/out" >"\$kept/other"; mv "\$kept/other" "\$kept/out"; }}) };
wrong('the digest of another archive', $digest->('sha256 \(.*\)\(.\)$/sha256 \2\1'), 'help') if defined $ENV{CAPTIONS_LIB};
wrong('another commit', $digest->('commit \(.*\)\(.\)$/commit \2\1'), 'help') if defined $ENV{CAPTIONS_COMMIT};
wrong('another kit', $digest->('^kit ./kit x'), 'help');
finish();

# arguments SH: the command with other words. SH sees each as $word, with the one before it as $before, and may change it or pass over it.
sub arguments {
    my ($sh) = @_;
    return "count=\$#\nbefore=\nwhile [ \$count -gt 0 ]; do word=\$1; here=\$1; shift; count=\$((count - 1))\n"
        . "$sh\nbefore=\$here; set -- \"\$@\" \"\$word\"; done\nexec \"\$real\" \"\$@\"\n";
}

# started NAME SH DRIVER: the script, and the driver on it. What the driver says, and its status.
sub started {
    my ($name, $sh, $driver) = @_;
    my $script = save("$work/captions", "#!/bin/sh\nreal='$command'\nkept='$kept'\n$sh\n");
    chmod 0755, $script or die "$script: $!\n";
    my ($file, @words) = @{ driver($driver) };
    return ask(["$FindBin::Bin/$file.pl", $script, @words, '--stop', '--light'], command => $^X, patience => 900);
}

sub right {
    my ($name, $sh, @drivers) = @_;
    for my $driver (@drivers) {
        my $answer = started($name, $sh, $driver);
        case("$name, $driver", $answer, $answer->{status} eq 0 ? undef : "it is noticed: $answer->{out}$answer->{err}");
    }
}

sub wrong {
    my ($name, $sh, @drivers) = @_;
    for my $driver (@drivers) {
        my $answer = started($name, $sh, $driver);
        my ($failure) = $answer->{out} =~ /^(\w+: FAILED .*)$/m;
        print "$name, $driver: $failure\n" if $ENV{STANDINS_SHOW} && defined $failure;
        my $noticed = $answer->{status} eq 1 && defined $failure;
        case("$name, $driver", $answer, $noticed ? undef : "it is not noticed: status $answer->{status}, $answer->{out}$answer->{err}");
    }
}
