#!/usr/bin/perl
# command/test/programs.pl COMMAND FOLDER [WORD..]: the command beside the Rattle programs of FOLDER, on every input of the vectors. Where a program lists
# or writes, the command has to print the same bytes; where it prints a refusal, the command says it in the first line of standard error.
use strict;
use warnings;
use Cwd qw(abs_path);
use FindBin;
use lib $FindBin::Bin;
use Listings;
use Run;
use Samples;
use Vectors;

begin('programs');
my ($folder) = words_left() or die "usage: perl command/test/programs.pl COMMAND FOLDER\n";
$folder = abs_path($folder) // die "there is no such folder\n";
chdir "$FindBin::Bin/../.." or die "the root of the repository: $!\n";

# Which program prints what a verb prints.
my %program = (area => 'cclist', payload => 'aulist', packet => 'sdplist');
my (%done, %count, %kinds, @replacements);

vectors(\&one, sort glob 'vectors/*.txt');
replaced(@$_) for @replacements;
more_words();
for my $verb (sort keys %program) {
    failed("$program{$verb}: no input was listed, or none refused", undef, 'the vectors have both') if every() == 1 && !($kinds{$verb}{0} && $kinds{$verb}{1});
}
note(map { "$_: $count{$_} inputs" } sort keys %count);
finish();

# A line: its input, or what was written, for each program that takes such.
sub one {
    my ($vector) = @_;
    my ($given, $answer) = @$vector{qw(given answer)};
    my ($carriage, $kind) = @$vector{qw(carriage kind)};
    if (defined $given->{in}) {
        my $bytes = bytes_of($given->{in});
        compared('area', $vector->{at}, $bytes) if $carriage eq 'area' || $carriage eq 'ga94';
        compared('payload', $vector->{at}, $bytes) if $carriage eq 'payload';
        compared('packet', $vector->{at}, $bytes) if $carriage eq 'packet' || $kind eq 'pes convert';
    }
    if (defined $answer->{out}) {
        my $bytes = bytes_of($answer->{out});
        compared('area', "$vector->{at}, written", $bytes) if $kind =~ /\A(?:area|ga94) replace\z|\A(?:unit|ga94) write\z/;
        compared('payload', "$vector->{at}, written", $bytes) if $kind =~ /\Apayload (?:write|reel)\z/;
        compared('packet', "$vector->{at}, written", $bytes) if $kind eq 'packet write';
    }
    return unless $kind eq 'area replace' || $kind eq 'unit write';
    my @records = records_of($given->{recs});
    return skip("$kind: fewer records than n") if @records < $given->{n};
    my $unit = { reserved => $given->{reserved}, flag => $given->{flag}, z => $given->{z}, records => [@records[0 .. $given->{n} - 1]] };
    push @replacements, [$vector->{at}, area_words($unit), bytes_of($given->{in} // '-')];
}

# compared VERB LABEL BYTES: the program and the command on one input. An input that was there before is passed over.
sub compared {
    my ($verb, $label, $bytes) = @_;
    return if $done{$verb}{$bytes}++;
    return if $count{$verb}++ % every();
    both("$label, $program{$verb}", $program{$verb}, [], [$verb], $bytes, $verb);
}

# both LABEL PROGRAM WORDS WORDS BYTES KIND: both print the same, or refuse alike.
sub both {
    my ($label, $program, $words, $asked, $bytes, $kind) = @_;
    my $said = ask($words, in => $bytes, command => "$folder/$program");
    my $answer = ask($asked, in => $bytes);
    my @faults = ($said->{status} eq 0 ? undef : "$program ended with status $said->{status}", same("what $program says", $said->{err}, ''));
    if ($said->{out} =~ /\Arefused \d+ at \d+\n\z/) {
        $kinds{$kind}{1}++;
        my ($first) = $answer->{err} =~ /\A(.*\n)/;
        return case($label, $answer, @faults, $answer->{status} eq 1 ? undef : "status was $answer->{status}, has to be 1",
            same('the first line of standard error', $first // '', $said->{out}), same('standard output', $answer->{out}, ''));
    }
    $kinds{$kind}{0}++;
    return accepted($label, $answer, $said->{out}, @faults);
}

# replaced LABEL WORDS AREA: ccreplace takes 4,096 bytes of words.
sub replaced {
    my ($label, $words, $area) = @_;
    return skip('replace: more words than ccreplace takes') if length $words > 4096;
    return if $count{replace}++ % every();
    both("$label, ccreplace", 'ccreplace', [split ' ', $words], ['replace', '--unit', $words], $area, 'replace');
}

# Words of all kinds, into areas of all kinds. Where ccreplace tells how to use it, the command has to say wrong use.
sub more_words {
    my $group = "\0\0\1\xB2\3\x09\x94\x2C";
    my @areas = ('', CASE_A, CASE_D, CASE_Q, CASE_D . "\0\0\1\xB2A\0\0", $group, $group . CASE_D . $group, "\0\0\1\xB2\3", "\0\0\1\xB3", CASE_A x 2,
        CASE_D . "\0" x 16379);
    my $four = join ' ', map { "0 1 $_ 94 2C" } 10 .. 13;
    my @words = (
        WORDS_A, '64 1 0 0 1 11 94 2c', ' 64 1  0 0 1 11 94 2C ', "64\t1\n0\t\t0 1 11\n94\t2C\t", '00000000064 01 0 000 0000000001 0011 94 2C',
        '64 0 0', '64 1 0', '64 1 0 0 0 11 94 2C', '64 1 0 300 1 11 94 2C', '64 1 1000000000 0 1 11 94 2C', '320 1 0', '65600 1 0', '4294967360 1 0', '18446744073709551680 1 0',
        '64 18446744073709551617 0 0 1 11 94 2C', '64 1 4294967296', '64 1 18446744073709551616', '64 1 0 18446744073709551616 1 11 94 2C',
        '64 1 0 0 4294967297 11 94 2C', '64 1 0 0 1 ' . '12' x 50 . ' 94 2C', '64 1 0' . ' 0 1 11 94 2C' x 32, '4 1 0', '4 1 0 0 1 11 94 2C', '5 0 0',
        '5 0 16384', '4 0 0', '5 1 0', '64 1 15997 0 1 11 94 2C', '64 1 16384', "64 1 0 $four", "64 1 0 $four 0 1 14 94 2C", '64 1 0 0 2 11 94 2C 0 1 11 94 2C',
        '64 1 ' . '0' x 4000 . ' 0 1 11 94 2C',
    );
    for my $words (@words) {
        both("'" . substr($words, 0, 60) . "', ccreplace", 'ccreplace', [$words], ['replace', '--unit', $words], $_, 'replace') for @areas;
    }
    for my $words ('', ' ', '64 1', '64 1 0 0 1 11 94', '64 1 0 0 1 11 94 2C 0', '64 1 x 0 1 11 94 2C', '64 1 0000000000x 0 1 11 94 2C',
        '64 1 -0 0 1 11 94 2C', '64 1 0 0 1 11 94 C', '64 1 0 0 1 11 94 02C', '--help', '0x40 1 0', '64,1,0', '64 1 0 0 1 11 94 2G') {
        my $said = ask([$words], in => CASE_D, command => "$folder/ccreplace");
        my $told = $said->{out} eq '' && $said->{err} =~ /\Ausage: ccreplace /;
        my $usage = $told ? undef : "ccreplace does not tell how to use it, but '$said->{out}' and '$said->{err}'";
        misused("'$words', ccreplace", ask(['replace', "--unit=$words"], in => CASE_D), undef, $usage);
    }
}
