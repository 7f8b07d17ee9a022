# seeds.pl FOLDER: what the fuzz targets begin with, a file each: calls of the command, and texts of each kind.
use strict;
use warnings;

my ($folder) = @ARGV or die "usage: seeds.pl FOLDER\n";

# The words of a call stand between zero bytes.
my @calls = (
    [qw(area -f hex picture.txt)],
    [qw(area --value --output=unit.txt)],
    [qw(ga94 --json -)],
    [qw(packet --from little -- -name)],
    [qw(multi --from=big -j)],
    [qw(payload -h)],
    [qw(pes -o listing --from bytes field)],
    ['replace', '-u', '64 1 0 0 1 11 94 2C', '-t', 'hex', 'area'],
    [qw(ga94-replace --unit-file words -o new old)],
    [qw(film --each --json run)],
    [qw(reel --size 291 --flags FF --to bytes)],
    [qw(reel-list --size 0 payloads)],
    [qw(to-pes -f big -t hex)],
    ['--version'],
    ['--help'],
);

# The number before a text says which parser reads it (texts.c).
my $area = '000001B2038108ACA4D200';
my @texts = (
    [0, "00 00 01 b2,0x03 81\n08AC"],
    [1, "000 3FF 3FF 143\n0x0102,2"],
    [1, '000003FF03FF0143'],
    [2, '64 1 0  0 1 11 94 2C  1 2 0 80 80'],
    [2, '128 2 99999999999999999999'],
    # More constructs than have a place.
    [2, '64 1 0' . ' 0 1 11 94 2C' x 33],
    [3, '0 1 0 FF 0' . ' 1 0 94 2C' x 33],
    [3, '0 1 0 FF 0  1 0 94 2C'],
    [4, "1 1 11 $area\n0 0 11 -\nclose\n"],
    [4, "waiting 1 94 2C\n1 0 11 $area\n"],
    [4, "1 0 12 $area\n\n1 2 11 00\n1 0 11"],
    [5, "flags 00\nvalid_1 valid_2 padding field1 field2\n1 0 63 94 2C 00 00\n"],
    [5, "0 1 0 00 00 15 2C\r\nflags 80\n"],
);

# put TARGET NAME BYTES: a file.
sub put {
    my ($target, $name, $bytes) = @_;
    mkdir $folder;
    mkdir "$folder/$target";
    open my $file, '>:raw', "$folder/$target/$name" or die "$folder/$target/$name: $!\n";
    print $file $bytes;
    close $file or die "$folder/$target/$name: $!\n";
}

put('arguments', "call-$_", join "\0", @{ $calls[$_] }) for 0 .. $#calls;
put('texts', "text-$_", chr($texts[$_][0]) . $texts[$_][1]) for 0 .. $#texts;
