# What the hostile cases share: the samples, folders, noise, and what is often judged.
package Hostile;
use strict;
use warnings;
use Exporter 'import';
use Listings;
use Run;
use Samples;

our @EXPORT = qw($work @samples %sample reason words fresh fresh_with noise_byte noise formats formatted each_format refused_input refusal_of at_status
    text_fault reel_listed added);

our ($work, @samples, %sample);

# prepare: behind `begin`, which makes the folder.
sub prepare {
    $work = work();
    @samples = samples();
    %sample = map { $_->{verb} => $_ } @samples;
}

# The strings of the system's errors.
sub reason { local $! = $_[0]; return "$!" }

# words SAMPLE WORD..: the verb, what it needs, and more.
sub words {
    my ($sample, @more) = @_;
    return [$sample->{verb}, @{ $sample->{words} }, @more];
}

# A folder of its own, with nothing in it.
my $folders = 0;
sub fresh {
    my $folder = "$work/f" . $folders++;
    mkdir $folder or die "$folder: $!\n";
    return $folder;
}

sub fresh_with {
    my ($name, $bytes) = @_;
    my $folder = fresh();
    save("$folder/$name", $bytes);
    return $folder;
}

# The same noise in each run.
my $seed = 20260117;
sub noise_byte {
    $seed = ($seed * 1103515245 + 12345) % 2147483648;
    return $seed >> 16 & 255;
}

sub noise { my ($n) = @_; return pack 'C*', map { noise_byte() } 1 .. $n }

# The formats of an input, and the sample's input in one of them.
sub formats {
    my ($sample) = @_;
    return { bytes => [qw(bytes hex)], words => [qw(big little hex)], text => [] }->{ $sample->{from} }->@*;
}

sub formatted {
    my ($sample, $format) = @_;
    my $in = $sample->{in};
    return pack 'v*', unpack 'n*', $in if $format eq 'little';
    return $format eq 'hex' ? hex_bytes($in) : $in;
}

# each_format CODE: with each verb, each of its formats, and the words for it.
sub each_format {
    my ($code) = @_;
    for my $sample (@samples) {
        $code->($sample, $_, words($sample, '--from', $_)) for formats($sample);
        $code->($sample, 'text', words($sample)) if $sample->{from} eq 'text';
    }
}

# An input that the verb refuses, with number and place: one byte or one word too few, or a number out of range.
my %refused = (
    area => ["\0\0\1\xB2\3", 5, 40], ga94 => ["\0\0\1\xB2GA94", 5, 64], packet => ["\0\0", 5, 1], multi => ["\0\0\3\xFF", 5, 2],
    payload => ["\0" x 7, 13, 7], pes => ["\x20", 6, 0], 'reel-list' => ["\0" x 18, 13, 7], replace => ["\0\0\1\xB2\3", 5, 40],
    'ga94-replace' => ["\0\0\1\xB2GA94", 5, 64], 'to-pes' => ["\0\0\3\xFF", 5, 2], film => ["1 0 11\n1 0 12 000001B203\n", 5, 40],
    reel => ["0 0 64 00 00 00 00\n", 15, 0],
);
sub refused_input { return $refused{ $_[0]{verb} }[0] }

sub refusal_of {
    my ($sample, $name) = @_;
    my (undef, $number, $place) = $refused{ $sample->{verb} }->@*;
    $name .= ':2' if $sample->{verb} eq 'film';
    $name .= ': payload 1' if $sample->{verb} eq 'reel-list';
    return $number, $place, $name;
}

sub at_status {
    my ($answer, $status) = @_;
    return $answer->{status} eq $status ? undef : "status was $answer->{status}, has to be $status";
}

# A text that is none: wrong use, at some line.
sub text_fault {
    my ($label, $answer, $name) = @_;
    $name //= 'standard input';
    my $line = $answer->{err} =~ /\Acaptions: \Q$name\E:\d+: / ? undef : "standard error was '$answer->{err}', and has to tell a line of $name";
    misused($label, $answer, undef, $line);
}

# The listing of a reel, from its bytes.
sub reel_listed {
    my ($bytes, $size) = @_;
    return join '', map {
        my ($flags, @units) = unpack 'C (a5)*', $_;
        payload_text($flags, map { my ($byte, $data) = unpack 'C a4', $_; [$byte >> 7, $byte >> 6 & 1, $byte & 63, $data] } grep { length } @units)
    } unpack '(a' . (1 + 5 * $size) . ')*', $bytes;
}

# The decimal digits of a sum. Numbers here are longer than Perl's own.
sub added {
    my ($left, $right) = @_;
    my @digits = reverse split //, $left;
    my @more = reverse split //, $right;
    my $carry = 0;
    for my $at (0 .. $#digits) {
        my $sum = $digits[$at] + ($more[$at] // 0) + $carry;
        $digits[$at] = $sum % 10;
        $carry = int $sum / 10;
    }
    return join '', $carry || '', reverse @digits;
}

1;
