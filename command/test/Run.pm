# What the drivers share: the words they take, starting the command on streams of all kinds, judging its answer, and counting.
#
# A driver is called with the command and perhaps with
#   --every K   only each K-th case of a kind
#   --light     each case in one of its forms, by turns, and not in all
#   --stop      end at the first case that fails (for stand-ins, which must fail)
#   --tally F   add the counts to the file F
# One case is one start of the command, with all that is judged of it.
package Run;
use strict;
use warnings;
use Cwd qw(abs_path getcwd);
use Errno qw(EINTR);
use Exporter 'import';
use Fcntl qw(:DEFAULT :seek);
use File::Temp qw(tempdir);
use POSIX ();

our @EXPORT = qw(begin finish work every light words_left ask accepted refused misused broken same case failed skip note
    spell save content digits left_beside);

my ($driver, $command, $work, $tally);
my ($every, $light, $stop) = (1, 0, 0);
my ($passed, $failures) = (0, 0);
my (%skipped, @skips, @notes, @left);
my (%words, %number);
my ($in, $out, $err);

# No run takes a minute. What is still there then has stopped, and is ended.
my $PATIENCE = 120;

# ---- Beginning and end ----

# begin NAME: takes the driver's words, and makes its folder.
sub begin {
    ($driver) = @_;
    while (@ARGV) {
        my $word = shift @ARGV;
        if    ($word eq '--every') { $every = shift @ARGV }
        elsif ($word eq '--light') { $light = 1 }
        elsif ($word eq '--stop')  { $stop  = 1 }
        elsif ($word eq '--tally') { $tally = shift @ARGV }
        elsif (!defined $command)  { $command = $word }
        else                       { push @left, $word }
    }
    die "usage: perl command/test/$driver.pl COMMAND [--every K] [--light] [--stop] [--tally FILE]\n" unless defined $command;
    $command = abs_path($command) // die "there is no command there\n";
    -x $command or die "$command cannot be run\n";
    $tally = getcwd() . "/$tally" if defined $tally && $tally !~ m{\A/};
    $work = tempdir("captions-$driver-XXXXXX", TMPDIR => 1, CLEANUP => 1);
    $work = abs_path($work);
    $ENV{LC_ALL} = 'C';
    # A sanitizer's report must not look like a refusal, whose status is 1.
    $ENV{ASAN_OPTIONS}  = 'exitcode=99:abort_on_error=0:detect_leaks=1:allocator_may_return_null=1';
    $ENV{LSAN_OPTIONS}  = 'exitcode=98';
    $ENV{UBSAN_OPTIONS} = 'exitcode=97:print_stacktrace=1';
    ($in, $out, $err) = map { scratch($_) } qw(stdin stdout stderr);
    $SIG{PIPE} = 'DEFAULT';
    $| = 1;
    return $command;
}

# finish: prints and adds the counts. The status is 1 where a case failed.
sub finish {
    print "$driver: $_\n" for @notes;
    print "$driver: skipped $skipped{$_}: $_\n" for @skips;
    print "$driver: $passed passed, $failures failed\n";
    if (defined $tally) {
        open my $file, '>>', $tally or die "$tally: $!\n";
        print $file "$passed $failures\n";
        close $file or die "$tally: $!\n";
    }
    exit($failures ? 1 : 0);
}

sub work       { return $work }
sub every      { return $every }
sub light      { return $light }
sub words_left { return @left }

# skip WHAT [N]: counts what could not be tried. note TEXT: a line for the end.
sub skip {
    my ($what, $n) = @_;
    push @skips, $what unless exists $skipped{$what};
    $skipped{$what} += $n // 1;
}

sub note { push @notes, @_ }

# ---- Files ----

# A file for one of the streams, emptied before each run: opening one for each would cost more than the run.
sub scratch {
    my ($name) = @_;
    sysopen my $file, "$work/$name", O_RDWR | O_CREAT or die "$work/$name: $!\n";
    binmode $file;
    return $file;
}

# save PATH BYTES, content PATH
sub save {
    my ($path, $bytes) = @_;
    open my $file, '>:raw', $path or die "$path: $!\n";
    print $file $bytes;
    close $file or die "$path: $!\n";
    return $path;
}

sub content {
    my ($path) = @_;
    open my $file, '<:raw', $path or return undef;
    local $/;
    return <$file> // '';
}

# The names in a folder.
sub left_beside {
    my ($folder) = @_;
    opendir my $entries, $folder or die "$folder: $!\n";
    return join ' ', sort grep { !/\A\.\.?\z/ } readdir $entries;
}

sub refill {
    my ($file, $bytes) = @_;
    sysseek $file, 0, SEEK_SET or die "seek: $!\n";
    truncate $file, 0 or die "truncate: $!\n";
    my $at = 0;
    while ($at < length $bytes) {
        $at += syswrite($file, $bytes, length($bytes) - $at, $at) // die "write: $!\n";
    }
    sysseek $file, 0, SEEK_SET or die "seek: $!\n";
}

sub drain {
    my ($file) = @_;
    sysseek $file, 0, SEEK_SET or die "seek: $!\n";
    my $text = '';
    while (1) {
        my $n = sysread $file, $text, 1 << 20, length $text;
        die "read: $!\n" unless defined $n;
        return $text unless $n;
    }
}

# ---- One run ----

# ask WORDS [in => BYTES] [stdin => HANDLE] [stdout => HANDLE] [stderr => HANDLE] [closed => DIGITS] [via => WORDS] [folder => PATH]
#     [beside => CODE] [env => HASH] [command => PATH] [patience => SECONDS]: runs the command, or another. CODE runs beside it, as the reader or writer
#     of a pipe.
# The answer has status (a number, or `signal N`), out, err, and what was asked.
sub ask {
    my ($words, %how) = @_;
    if    ($how{stdin})      { }
    elsif (defined $how{in}) { refill($in, $how{in}) }
    refill($out, '') unless $how{stdout};
    refill($err, '') unless $how{stderr};
    my @argv = (@{ $how{via} // [] }, $how{command} // $command, @$words);
    my $child = fork // die "fork: $!\n";
    if (!$child) {
        my $from = $how{stdin};
        $from = $in if !$from && defined $how{in};
        if (!$from) { open $from, '<', '/dev/null' or POSIX::_exit(126) }
        my @streams = ($from, $how{stdout} // $out, $how{stderr} // $err);
        # None of them is 0 to 2, and all numbers above are closed when the command begins.
        POSIX::dup2(fileno $streams[$_], $_) for 0 .. 2;
        POSIX::close($_) for split //, $how{closed} // '';
        chdir $how{folder} or POSIX::_exit(126) if defined $how{folder};
        $ENV{$_} = $how{env}{$_} for keys %{ $how{env} // {} };
        $SIG{$_} = 'DEFAULT' for qw(PIPE XFSZ ALRM);
        no warnings 'exec';
        exec { $argv[0] } @argv;
        POSIX::_exit(127);
    }
    $how{beside}->($child) if $how{beside};
    my $late = 0;
    my $patience = $how{patience} // $PATIENCE;
    local $SIG{ALRM} = sub { $late = 1; kill KILL => $child };
    alarm $patience;
    1 while waitpid($child, 0) == -1 && $! == EINTR;
    alarm 0;
    my $status = $late ? "no end after $patience seconds" : $? & 127 ? 'signal ' . ($? & 127) : $? >> 8;
    return {
        status => $status,
        out    => $how{stdout} ? '' : drain($out),
        err    => $how{stderr} ? '' : drain($err),
        asked  => spell($words, %how),
    };
}

# The run as a line of the shell, as far as it can be told.
sub spell {
    my ($words, %how) = @_;
    my $text = join ' ', map { quoted($_) } @{ $how{via} // [] }, $how{command} // 'captions', @$words;
    $text .= " $_>&-" for split //, $how{closed} // '';
    if (defined $how{in}) {
        $text .= length $how{in} > 400
            ? ' <(' . length($how{in}) . ' bytes, the first 100 ' . digits(substr $how{in}, 0, 100) . ')'
            : ' <(hex ' . digits($how{in}) . ')';
    }
    return $text;
}

sub quoted {
    my ($word) = @_;
    return $word if $word =~ m{\A[\w./=+:,\@%-]+\z};
    my $short = length $word > 300 ? substr($word, 0, 300) . '..(' . length($word) . ' bytes)' : $word;
    $short =~ s/'/'\\''/g;
    $short =~ s/([^\x20-\x7E\n])/sprintf '\\x%02X', ord $1/ge;
    return "'$short'";
}

# Bytes as hex digits.
sub digits { return uc unpack 'H*', $_[0] }

# ---- Judging ----

# case LABEL ANSWER FAULT..: one case is over. It passed where there is no fault.
sub case {
    my ($label, $answer, @faults) = @_;
    @faults = grep { defined } @faults;
    if (!@faults) {
        $passed++;
        return 1;
    }
    $failures++;
    if ($failures <= 40) {
        print "$driver: FAILED $label\n";
        print "    \$ $answer->{asked}\n" if $answer;
        print "    $_\n" for @faults;
    }
    elsif ($failures == 41) {
        print "$driver: more failed, and are only counted\n";
    }
    if ($stop) {
        print "$driver: stopped\n";
        finish();
    }
    return 0;
}

sub failed { return case(@_) }

# same WHAT WAS EXPECTED: nothing, or how they differ.
sub same {
    my ($what, $was, $expected) = @_;
    return undef if $was eq $expected;
    my $at = 0;
    $at++ while $at < length $was && $at < length $expected && substr($was, $at, 1) eq substr($expected, $at, 1);
    my $from = $at > 60 ? $at - 60 : 0;
    return sprintf '%s differs at byte %d: was %s (%d bytes), has to be %s (%d bytes)', $what, $at,
        seen(substr $was, $from, 160), length $was, seen(substr $expected, $from, 160), length $expected;
}

sub seen {
    my ($text) = @_;
    $text =~ s/\\/\\\\/g;
    $text =~ s/\n/\\n/g;
    $text =~ s/([^\x20-\x7E])/sprintf '\\x%02X', ord $1/ge;
    return "'$text'";
}

sub ended {
    my ($answer, $status) = @_;
    return undef if $answer->{status} eq $status;
    return "status was $answer->{status}, has to be $status; standard error: " . seen(substr $answer->{err}, 0, 600);
}

# accepted LABEL ANSWER TEXT FAULT..: status 0, this text and no more, nothing said.
sub accepted {
    my ($label, $answer, $text, @faults) = @_;
    return case($label, $answer, ended($answer, 0), same('standard output', $answer->{out}, $text),
        same('standard error', $answer->{err}, ''), @faults);
}

# refused LABEL ANSWER NUMBER PLACE NAME FAULT..: status 1, nothing on standard output, on standard error the refusal and a line of words. NAME is what
# stands before these words: the input's name, and perhaps a line or a payload.
sub refused {
    my ($label, $answer, $number, $place, $name, @faults) = @_;
    return case($label, $answer, ended($answer, 1), same('standard output', $answer->{out}, ''), told($answer, $number, $place, $name), @faults);
}

# told ANSWER NUMBER PLACE NAME: the two lines of a refusal.
sub told {
    my ($answer, $number, $place, $name) = @_;
    my @lines = split /^/, $answer->{err};
    return 'standard error has ' . @lines . ' lines, and has to have 2: ' . seen($answer->{err}) if @lines != 2;
    my $first = same('the first line of standard error', $lines[0], "refused $number at $place\n");
    return $first if defined $first;
    # What places are counted in stands behind the words, in parentheses, unless the place is 0.
    my ($meaning) = $lines[1] =~ ($place ? qr/\Acaptions: \Q$name\E: ([^ \n()][^\n()]*) \([^()\n]+\)\n\z/ : qr/\Acaptions: \Q$name\E: ([^ \n()][^\n()]*)\n\z/);
    return 'the second line of standard error was ' . seen($lines[1]) . ', and has to be ' . seen("captions: $name: WORDS" . ($place ? ' (PLACES)' : ''))
        unless defined $meaning;
    return meant($number, $meaning);
}

# meant NUMBER WORDS: a number means the same in each refusal, and no other number does.
sub meant {
    my ($refused, $meaning) = @_;
    my $before = $words{$refused} //= $meaning;
    return "$refused means " . seen($meaning) . ', and meant ' . seen($before) . ' before' if $meaning ne $before;
    $number{$meaning} //= $refused;
    return $number{$meaning} == $refused ? undef : "$refused means the same as $number{$meaning}";
}

# misused LABEL ANSWER [NAME] FAULT..: status 2, nothing on standard output, words on standard error. NAME is what they must name, as FILE:LINE.
sub misused {
    my ($label, $answer, $name, @faults) = @_;
    my $begin = defined $name ? "captions: $name: " : 'captions: ';
    push @faults, 'standard error was ' . seen($answer->{err}) . ', and has to begin ' . seen($begin)
        if $answer->{err} !~ /\A\Q$begin\E[^ \n][^\n]*\n/;
    push @faults, 'standard error does not end with a line feed' if $answer->{err} !~ /\n\z/;
    push @faults, 'standard error tells of a refusal' if $answer->{err} =~ /^refused /m;
    return case($label, $answer, ended($answer, 2), same('standard output', $answer->{out}, ''), @faults);
}

# broken LABEL ANSWER NAME REASON FAULT..: status 3, nothing on standard output, one line on standard error.
sub broken {
    my ($label, $answer, $name, $reason, @faults) = @_;
    return case($label, $answer, ended($answer, 3), same('standard output', $answer->{out}, ''),
        same('standard error', $answer->{err}, "captions: $name: $reason\n"), @faults);
}

1;
