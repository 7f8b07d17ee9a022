# The lines of vectors/*.txt, taken apart (vectors/README.md).
package Vectors;
use strict;
use warnings;
use Exporter 'import';

our @EXPORT = qw(vectors bytes_of list_of units_of slots_of inners_of data_units_of records_of ga94_records_of);

# vectors CODE FILE..: calls CODE with each line. A line is a hash: file and line; carriage, operation, tag; given, its values by key;
# answer, those of the answer, with refused and place where it is a refusal, and text, the whole of it.
# Lines that begin with # are remarks, and with ! are wrong on purpose: `wrong` is set there.
sub vectors {
    my ($code, @files) = @_;
    for my $path (@files) {
        open my $file, '<:raw', $path or die "$path: $!\n";
        while (my $line = <$file>) {
            chomp $line;
            next if $line =~ /\A#/ || $line !~ /\S/;
            $code->(taken_apart($line, $path, $.));
        }
    }
}

sub taken_apart {
    my ($line, $file, $number) = @_;
    my $at = "$file:$number";
    my $wrong = $line =~ s/\A!//;
    my ($front, $text) = $line =~ /\A(.*?) => (.*)\z/ or die "$at: there is no answer\n";
    my ($carriage, $operation, $state, $tag, @pairs) = split / /, $front;
    die "$at: a line for the state $state\n" unless $state eq '1-8';
    my %given = map { /\A([^=]*)=(.*)\z/ or die "$at: no value: $_\n"; ($1, $2) } @pairs;
    my %answer = (text => $text);
    if ($text =~ /\Arefused (\d+) at (\d+)((?: or \d+)*)\z/) {
        my ($refused, @places) = ($1, $2, split / or /, $3);
        $answer{refused} = $refused;
        $answer{place} = place($at, "$carriage $operation", $refused, grep { $_ ne '' } @places);
    }
    elsif ($text =~ /\A(?:ok|run|print) ?/) {
        $answer{$1} = $2 while $text =~ /(?:\A| )([a-z]+)=(\S*)/g;
    }
    else {
        die "$at: no answer: $text\n";
    }
    return {
        file => $file, line => $number, at => $at, wrong => $wrong, kind => "$carriage $operation",
        carriage => $carriage, operation => $operation, tag => $tag, given => \%given, answer => \%answer,
    };
}

# Of several places RULES takes one: where a data field is read the second, which is the byte at which the item begins; for 16, and for 5 and 26 of a
# multipacket, the first. A line with several places for anything else cannot be judged.
sub place {
    my ($at, $kind, $number, @places) = @_;
    return $places[0] if @places == 1;
    return $places[1] if $kind eq 'pes read';
    return $places[0] if $kind =~ /\Aga94 / && $number == 16;
    return $places[0] if $kind eq 'multi read' && ($number == 5 || $number == 26);
    die "$at: several places, and RULES does not choose\n";
}

# Bytes or words: segments of hex joined by +, each perhaps some times.
sub bytes_of {
    my ($text) = @_;
    return '' if $text eq '-';
    return join '', map { /\A([0-9A-F]+)\*(\d+)\z/ ? pack('H*', $1) x $2 : /\A(?:[0-9A-F]{2})*\z/ ? pack('H*', $_) : die "no bytes: $_\n" } split /\+/, $text;
}

# A list: items joined by commas, each perhaps some times.
sub list_of {
    my ($text) = @_;
    return () if $text eq '-';
    return map { /\A(.*)\*(\d+)\z/ ? ($1) x $2 : $_ } split /,/, $text;
}

# Items as lists: numbers, then the bytes.
sub apart {
    my ($item, $numbers) = @_;
    my @part = split /\./, $item, -1;
    die "no item: $item\n" unless @part == $numbers + 1;
    $part[-1] = bytes_of($part[-1]);
    return \@part;
}

sub records_of      { return map { apart($_, 3) } list_of($_[0]) }
sub ga94_records_of { return map { apart($_, 2) } list_of($_[0]) }
sub units_of        { return map { apart($_, 3) } list_of($_[0]) }
sub slots_of        { return map { apart($_, 4) } split /,/, $_[0] }

# Inner packets: line, field, DID and SDID as numbers, the user bytes.
sub inners_of {
    return map { my $inner = apart($_, 4); $inner->[$_] = hex $inner->[$_] for 2, 3; $inner } list_of($_[0]);
}

# Data units: id, parity, line, bytes; of stuffing FF, no parity, no line.
sub data_units_of {
    return map { /\AS\.(.*)\z/ ? [255, undef, undef, bytes_of($1)] : /\AT\.(.*)\z/ ? apart($1, 3) : die "no unit: $_\n" } list_of($_[0]);
}

1;
