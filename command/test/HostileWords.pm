# The words of a call that the command does not take, and names in what it says.
package HostileWords;
use strict;
use warnings;
use Errno ();
use Hostile;
use Listings;
use Run;
use Samples;

sub try_wrong_words {
    my $some = sub {
        my ($label, @words) = @_;
        misused("$label: captions @words", ask(\@words, in => CASE_A));
    };
    $some->('no verb');
    $some->('an empty verb', '');
    $some->('an unknown verb', $_) for qw(list areas Area cclist area-replace reellist to_pes ga-94 help version --);
    $some->('an option for a verb', $_) for qw(-x --json -j --from=hex --bogus - -o --unit --versions --hel);
    $some->('words behind an unknown verb', 'bogus', '--help') ;
    # Options that no verb has, or that are not spelt out.
    my @every = map { $_->{verb} } @samples;
    for my $verb (@every) {
        my @words = ($verb, @{ $sample{$verb}{words} });
        $some->('an unknown option', @words, $_)
            for qw(-x --bogus --JSON -J --form --o=x ---json --json- --jso --fro=hex --out=x --uni=x --valu --flag=00 --siz=1 --eac --hel --verbose --=x -=);
        $some->('two files', @words, 'one', 'two');
        $some->('two files', @words, '-', '-');
        $some->('two files behind --', @words, '--', 'one', 'two');
        $some->('a file and one behind --', @words, 'one', '--', '--json');
        $some->('an option without its value', @words, $_) for qw(-o --output);
        $some->('an option twice', @words, '-o', "$work/twice", '-o', "$work/twice");
        $some->('an option twice, by both spellings', @words, '-o', "$work/twice", "--output=$work/twice");
        $some->('a value for an option that has none', @words, '--help=1');
        misused("$verb, an unknown option before a missing file", ask([@words, '--bogus', "$work/none"]));
    }
    failed('wrong words left a file', undef, "$work/twice is there") if -e "$work/twice";
    # Which verb takes which option. What is left over is wrong use.
    my %takes = (
        '--json'  => [qw(area ga94 packet multi payload pes reel-list film)],
        '--from'  => [grep { $sample{$_}{from} ne 'text' } @every],
        '--to'    => [grep { $sample{$_}{bytes} } @every],
        '--unit'  => [qw(replace ga94-replace)], '--unit-file' => [qw(replace ga94-replace)],
        '--value' => [qw(area ga94)], '--flags' => ['reel'], '--size' => [qw(reel reel-list)], '--each' => ['film'],
    );
    my %value = ('--from' => 'hex', '--to' => 'hex', '--unit' => '64 0 0', '--unit-file' => "$work/stdin", '--flags' => '00', '--size' => '1');
    my %short = ('--json' => '-j', '--from' => '-f', '--to' => '-t', '--unit' => '-u');
    for my $option (sort keys %takes) {
        my %taker = map { $_ => 1 } $takes{$option}->@*;
        my @value = exists $value{$option} ? $value{$option} : ();
        for my $verb (@every) {
            my @words = $verb =~ /replace/ && $option =~ /unit/ ? $verb : ($verb, @{ $sample{$verb}{words} });
            @words = $verb if $option eq '--size';
            if (!$taker{$verb}) {
                $some->('an option of another verb', @words, $option, @value);
                $some->('an option of another verb', @words, "$option=@value") if @value;
                $some->('an option of another verb', @words, $short{$option}, @value) if $short{$option};
                next;
            }
            $some->('an option twice', @words, $option, @value, $option, @value);
            $some->('an option twice, by both spellings', @words, $option, @value, $short{$option}, @value) if $short{$option};
            $some->('a value for an option that has none', @words, "$option=1") unless @value;
            next unless @value;
            $some->('an option without its value', @words, $option);
            $some->('an option without its value', @words, $short{$option}) if $short{$option};
            $some->('an option twice, once with =', @words, "$option=@value", $option, @value);
        }
    }
    $some->('--json with --value', $_, '--json', '--value') for qw(area ga94);
    for my $verb (qw(replace ga94-replace)) {
        my $unit = $sample{$verb}{words}[1];
        $some->('both --unit and --unit-file', $verb, '--unit', $unit, '--unit-file', save("$work/unit", $unit));
        $some->('neither --unit nor --unit-file', $verb);
        misused("$verb, neither --unit nor --unit-file, and no such file", ask([$verb, "$work/none"]));
    }
}

sub try_wrong_values {
    my $some = sub {
        my ($label, @words) = @_;
        misused("$label: captions @words", ask(\@words, in => CASE_A));
    };
    for my $sample (@samples) {
        my %good = map { $_ => 1 } formats($sample);
        my @words = ($sample->{verb}, @{ $sample->{words} });
        next if $sample->{from} eq 'text';
        my @formats = grep { !$good{$_} } qw(bytes hex big little BYTES Hex he hexx text json big-endian), '', ' hex';
        $some->('a format that the verb does not have', @words, '--from', $_) for @formats;
        $some->('no format behind =', @words, '--from=');
    }
    for my $sample (grep { $_->{bytes} } @samples) {
        my @words = ($sample->{verb}, @{ $sample->{words} });
        $some->('a format of output that there is not', @words, '--to', $_) for qw(big little HEX text json byte), '';
        $some->('no format behind =', @words, '--to=');
    }
    for my $verb (qw(reel reel-list)) {
        $some->('a size that is no number', $verb, '--size', $_) for qw(x -1 +1 1x 0x10 1.0 1e2), '1,0', '', ' ', '1 1', '5' x 5000 . 'x';
        $some->('no size behind =', $verb, '--size=');
    }
    $some->('flags that are no hex', 'reel', '--flags', $_) for qw(G0 0G xx -1 +1 0.0), '', ' ', '0 0', '0,0', '0' x 5000 . 'x';
    $some->('no flags behind =', 'reel', '--flags=');
}

sub try_names {
    my $folder = fresh();
    for my $case (
        ['a name', 'bad.bin'], ['a name with a space', 'a b'], ['a name with a per cent sign', '%s%n%d'], ['a name that begins with a minus', '-bad'],
        ['a name with letters above 7F', "\xC3\xA9t\xC3\xA9"], ['a long name', 'n' x 250],
    ) {
        my ($label, $name) = @$case;
        save("$folder/$name", "\0\0\1\xB2\3");
        refused("area, refused, $label", ask(['area', '--', $name], folder => $folder), 5, 40, $name);
        unlink "$folder/$name";
        broken("area, no such file, $label", ask(['area', '--', $name], folder => $folder), $name, reason(Errno::ENOENT));
        save("$folder/$name", "x\n");
        misused("area, no hex, $label", ask(['area', '-f', 'hex', '--', $name], folder => $folder), "$name:1");
        unlink "$folder/$name";
        accepted("area, -o, $label", ask(['area', '-o', $name], in => CASE_A, folder => $folder), '',
            same('the file', content("$folder/$name") // 'no file', $sample{area}{out}));
        unlink "$folder/$name";
    }
    my $path = "$folder/" . '/.' x 1000 . '/bad';
    save("$folder/bad", "\0\0\1\xB2\3");
    refused('area, refused, a path of 2,000 bytes', ask(['area', $path]), 5, 40, $path);
    my $long = 'x' x 5000;
    broken('area, a name of 5,000 bytes', ask(['area', $long]), $long, reason(Errno::ENAMETOOLONG));
    broken('area, -o of a name of 5,000 bytes', ask(['area', '-o', $long], in => CASE_A), $long, reason(Errno::ENAMETOOLONG));
    misused('a verb of 100,000 bytes', ask(['x' x 100_000]));
    misused('an option of 100,000 bytes', ask(['area', '--' . 'x' x 100_000]));
    misused('a verb with a per cent sign', ask(['%s%n']));
    misused('an option with a per cent sign', ask(['area', '--%s%n']));
    misused('1,000 words', ask(['area', ('x') x 1000]));
    # An environment of nothing, and one with another language.
    accepted('area, no environment', ask(['area'], in => CASE_A, via => ['env', '-i', sanitizer_options()]), $sample{area}{out});
    accepted('area, another language', ask(['area'], in => CASE_A, env => { LC_ALL => 'de_DE.UTF-8', LANG => 'tr_TR.UTF-8' }), $sample{area}{out});
}

sub sanitizer_options { return map { "$_=$ENV{$_}" } grep { defined $ENV{$_} } qw(ASAN_OPTIONS LSAN_OPTIONS UBSAN_OPTIONS) }

1;
