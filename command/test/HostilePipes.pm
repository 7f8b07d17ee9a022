# Pipes: readers that are gone, early or late, and writers that are slow.
package HostilePipes;
use strict;
use warnings;
use Errno ();
use Fcntl;
use Hostile;
use Listings;
use Run;
use Samples;

# Readers that are gone or slow.
sub try_pipes {
    my $broken = reason(Errno::EPIPE);
    my ($reel, $list, $units) = long_reel();
    my $input = save("$work/reel", $reel);
    for my $sample (@samples) {
        my $verb = $sample->{verb};
        pipe my $read, my $write or die "pipe: $!\n";
        close $read;
        broken("$verb, no reader", ask(words($sample), in => $sample->{in}, stdout => $write), 'standard output', $broken);
        refused("$verb, refused, no reader", ask(words($sample), in => refused_input($sample), stdout => $write), refusal_of($sample, 'standard input'));
        my $answer = ask(words($sample), in => refused_input($sample), stderr => $write);
        case("$verb, refused, no reader of standard error", $answer, at_status($answer, 3), same('standard output', $answer->{out}, ''));
    }
    for my $words (['--help'], ['--version']) {
        pipe my $read, my $write or die "pipe: $!\n";
        close $read;
        broken("@$words, no reader", ask($words, stdout => $write), 'standard output', $broken);
    }
    # The reader takes some bytes and goes: after so many seconds, so many bytes.
    for my $case ([0, 1], [0, 70_000], [0.3, 10]) {
        my ($pause, $bytes) = @$case;
        pipe my $read, my $write or die "pipe: $!\n";
        my $answer = ask(['reel-list', $input], stdout => $write, beside => sub {
            close $write;
            select undef, undef, undef, $pause;
            my $got = '';
            while (length $got < $bytes) { sysread $read, $got, $bytes - length $got, length $got or last }
            close $read;
        });
        broken("reel-list, a reader that goes after $bytes bytes", $answer, 'standard output', $broken);
    }
    # Slow readers, by a pipe that blocks and by one that does not.
    for my $blocks (1, 0) {
        pipe my $read, my $write or die "pipe: $!\n";
        fcntl $write, F_SETFL, O_NONBLOCK or die "fcntl: $!\n" unless $blocks;
        my $got = '';
        my $answer = ask(['reel-list', $input], stdout => $write, beside => sub {
            close $write;
            select undef, undef, undef, 0.3;
            while (sysread $read, $got, 30_000, length $got) { select undef, undef, undef, 0.005 }
        });
        $answer->{out} = $got;
        accepted('reel-list, a slow reader of a pipe that ' . ($blocks ? 'blocks' : 'does not block'), $answer, $list);
    }
    # One command behind the other.
    my $both = ask(['reel-list', $input], via => ['sh', '-c', '"$@" | "$1" reel --size 291', 'sh']);
    accepted('reel-list into reel', $both, $reel);
    accepted('reel of 20,000 units', ask(['reel', '--flags', '7F'], in => $units), $reel);
}

# A listing that is longer than what a pipe holds, with its input.
sub long_reel {
    my @units = map { [$_ & 1, $_ >> 1 & 1, $_ % 64, pack 'N', $_ * 2654435761 % 4294967296] } 1 .. 20_000;
    my $bytes = '';
    my @left = @units;
    while (my @payload = splice @left, 0, 291) {
        $bytes .= "\x7F" . join '', map { pack('C', $_->[0] << 7 | $_->[1] << 6 | $_->[2]) . $_->[3] } @payload;
    }
    return $bytes, reel_text(0x7F, 291, @units), unit_lines(@units);
}

# Writers that are slow: byte by byte, in two parts, through a pipe that blocks or does not.
sub try_late {
    for my $sample (@samples) {
        my ($verb, $in, $out) = @$sample{qw(verb in out)};
        my $half = int(length($in) / 2);
        my @ways = (
            ['in two parts', 1, 0.2, substr($in, 0, $half), substr $in, $half],
            ['in two parts, by a pipe that does not block', 0, 0.2, substr($in, 0, $half), substr $in, $half],
            ['late, by a pipe that does not block', 0, 0.2, '', $in],
        );
        my @single = split //, substr $in, 0, 60;
        push @ways, ['byte by byte', 1, 0.001, @single, substr $in, @single];
        push @ways, ['byte by byte, by a pipe that does not block', 0, 0.001, @single, substr $in, @single];
        for my $way (@ways) {
            my ($name, $blocks, $pause, @parts) = @$way;
            accepted("$verb, $name", fed($blocks, $pause, [@parts], words($sample)), $out);
        }
        # The end comes late, and what came is refused.
        refused("$verb, refused, the end late", fed(0, 0.1, [refused_input($sample), ''], words($sample)), refusal_of($sample, 'standard input'));
    }
    my ($reel, $list) = long_reel();
    accepted('reel-list, 100,000 bytes in pieces', fed(0, 0.002, [unpack '(a5000)*', $reel], ['reel-list']), $list);
}

# fed BLOCKS PAUSE PARTS WORDS: the command on a pipe that gets these parts, with pauses between.
sub fed {
    my ($blocks, $pause, $parts, $words) = @_;
    pipe my $read, my $write or die "pipe: $!\n";
    fcntl $read, F_SETFL, O_NONBLOCK or die "fcntl: $!\n" unless $blocks;
    return ask($words, stdin => $read, beside => sub {
        close $read;
        local $SIG{PIPE} = 'IGNORE';
        for my $part (@$parts) {
            syswrite $write, $part if length $part;
            select undef, undef, undef, $pause;
        }
        close $write;
    });
}

1;
