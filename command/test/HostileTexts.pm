# Texts: hex, the words of a unit, runs of film, the lines of a reel.
package HostileTexts;
use strict;
use warnings;
use Errno ();
use Hostile;
use Listings;
use Run;
use Samples;

sub try_hex {
    my $hex = hex_bytes(CASE_A);
    my $text = $sample{area}{out};
    my $is = sub {
        my ($label, $in) = @_;
        accepted("area, hex, $label", ask(['area', '-f', 'hex'], in => $in), $text);
    };
    $is->('lower case', lc $hex);
    $is->('no line feed at the end', $hex);
    $is->('a line for each byte', join "\n", unpack '(A2)*', $hex);
    $is->('CR LF', join("\r\n", unpack '(A2)*', $hex) . "\r\n");
    $is->('commas', join ',', unpack '(A2)*', $hex);
    $is->('commas and spaces', join ' , ', unpack '(A6)*', $hex);
    $is->('0x', join ' ', map { "0x$_" } unpack '(A2)*', $hex);
    $is->('0x before all', "0x$hex");
    $is->('0x before groups', join ",\n", map { "0x$_" } unpack '(A6)*', lc $hex);
    $is->('spaces, tabs and line feeds', "\t\r\n " . join("\t \r\n", unpack '(A4)*', $hex) . "\n\n\n");
    $is->('1 MB of spaces between', join ' ' x (1 << 17), unpack '(A4)*', $hex);
    my $not = sub {
        my ($label, $line, $in) = @_;
        for my $verb (qw(area ga94 payload pes)) {
            misused("$verb, hex, $label", ask([$verb, '-f', 'hex'], in => $in), "standard input:$line");
        }
        my $file = save("$work/in", $in);
        misused("area, hex, $label, a file", ask(['area', '-f', 'hex', $file]), "$file:$line");
        misused("replace, hex, $label", ask(['replace', '-u', WORDS_A, '-f', 'hex', $file]), "$file:$line");
        misused("reel-list, hex, $label", ask(['reel-list', '-f', 'hex', $file]), "$file:$line");
    };
    $not->('a letter', 1, "${hex}G");
    $not->('a letter in the third line', 3, "00 00\n01\nB2 0G 03\n");
    $not->('an odd digit', 1, "${hex}0");
    $not->('a single digit in the second line', 2, "0000\n1\nB2\n");
    $not->('three digits', 2, "00\n000 00\n");
    $not->('a NUL byte', 1, "0000\x0000");
    $not->('a NUL byte at the end', 2, "0000\n\0");
    $not->('a byte above 7F', 2, "00\n00\xA000");
    $not->('a sign', 1, '-00');
    $not->('0x within a group', 1, '000x00');
    $not->('0x and no digit', 1, '0x');
    $not->('0x, a space, digits', 1, '0x 00');
    $not->('an h behind', 1, '00h');
    $not->('a point', 3, "00\r\n00\r\n00.00");
    $not->('another sign between', 1, '00;00');
    # Words: one to four digits, and above that four for each.
    my $words = $sample{packet}{in};
    my $says = sub {
        my ($label, $in) = @_;
        accepted("packet, hex, $label", ask(['packet', '-f', 'hex'], in => $in), $sample{packet}{out});
    };
    my @word = unpack '(n)*', $words;
    $says->('least digits', join ' ', map { sprintf '%x', $_ } @word);
    $says->('three digits', join ',', map { sprintf '%03X', $_ } @word);
    $says->('four digits', join "\n", map { sprintf '%04X', $_ } @word);
    $says->('0x', join ', ', map { sprintf '0x%X', $_ } @word);
    $says->('0x before all', '0x' . hex_bytes($words));
    $says->('groups of eight', join ' ', unpack '(A8)*', hex_bytes($words));
    my $mixed = sprintf('%x ', $word[0]) . unpack('H*', pack 'n*', @word[1 .. 3]) . join '', map { sprintf "\r\n0x%03x", $_ } @word[4 .. $#word];
    $says->('groups of all kinds', $mixed);
    for my $case (['five digits', 1, '003FF'], ['six digits', 2, "0\n03FF3F\n"], ['seven digits', 1, '0003FF3'], ['nine digits', 1, '000003FF0'],
        ['a letter', 2, "0 3FF\n3FG"], ['a NUL byte', 1, "0 \0"], ['0x and no digit', 1, '0x,']) {
        my ($label, $line, $in) = @$case;
        for my $verb (qw(packet multi to-pes)) {
            misused("$verb, hex, $label", ask([$verb, '-f', 'hex'], in => $in), "standard input:$line");
        }
    }
}

sub try_unit_words {
    my $name = 'standard input';
    # By --unit and by --unit-file: the same answers.
    my $both = sub {
        my ($verb, $label, $words, $judge) = @_;
        # An argument holds no NUL byte.
        $judge->("$verb, $label, --unit", ask([$verb, '--unit', $words], in => ''), '--unit') if $words !~ /\0/ && length $words < 100_000;
        my $file = save("$work/unit", $words);
        $judge->("$verb, $label, --unit-file", ask([$verb, '--unit-file', $file], in => ''), $file);
    };
    my $is = sub {
        my ($verb, $label, $words, $out) = @_;
        $both->($verb, $label, $words, sub { accepted(@_[0, 1], $out) });
    };
    my $refuses = sub {
        my ($verb, $label, $words, $number) = @_;
        $both->($verb, $label, $words, sub { refused(@_[0, 1], $number, 0, $name) });
    };
    my $not = sub {
        my ($verb, $label, $words, $line) = @_;
        $both->($verb, $label, $words, sub {
            my ($what, $answer, $source) = @_;
            misused($what, $answer, defined $line && $source ne '--unit' ? "$source:$line" : undef);
        });
        # Before the input is looked at.
        misused("$verb, $label, and no such file", ask([$verb, "$work/none", '--unit', $words])) if $words !~ /\0/ && length $words < 100_000;
    };
    $is->('replace', 'lower case', '64 1 0 0 1 11 94 2c', CASE_A);
    $is->('replace', 'lines', "64 1 0\n0 1 11 94 2C\n", CASE_A);
    $is->('replace', 'no line feed at the end', "64 1 0\n0 1 11 94 2C", CASE_A);
    $is->('replace', 'CR LF', "64 1 0\r\n0 1 11 94 2C\r\n", CASE_A);
    $is->('replace', 'spaces, tabs and line feeds', "\n\t 64 \t1\r0\r\n\n0 1 11\n94\n2C\n\n", CASE_A);
    $is->('replace', 'zeros in front', '0064 01 000 00 0001 00000000000011 94 2C', CASE_A);
    $is->('replace', '5,000 zeros', '64 1 ' . '0' x 5000 . ' 0 1 11 94 2C', CASE_A);
    $is->('replace', '5,000 zeros before each number', join(' ', map { '0' x 5000 . $_ } 64, 1, 0, 0, 1, 11) . ' 94 2C', CASE_A);
    $is->('replace', 'no records', '64 0 0', CASE_D);
    $is->('ga94-replace', 'lower case, lines', "1 1 0 ff 0\n1 0 94 2c\n", CASE_Q);
    $is->('ga94-replace', '5,000 zeros before each number', join(' ', map { '0' x 5000 . $_ } 1, 1, 0) . ' FF ' . '0' x 5000 . ' 1 0 94 2C', CASE_Q);
    # Cut to 8, 16, 32 or 64 bits these numbers would be legal.
    my %legal = (0 => '64 1 0 0 1 11 94 2C', 1 => '1 1 0 FF 0 1 0 94 2C');
    my @verbs = qw(replace ga94-replace);
    my @above = (['256', 256], ['65536', 65536], ['2^32', 4294967296], ['2^64', '18446744073709551616'], ['2^128', '340282366920938463463374607431768211456']);
    for my $which (0, 1) {
        my @legal = split ' ', $legal{$which};
        for my $at ($which ? (0, 1, 2, 4, 5, 6) : 0 .. 5) {
            for my $case (@above, ['5,000 digits', '9' x 5000]) {
                my ($label, $more) = @$case;
                my @words = @legal;
                # 256 bytes of stuffing are legal.
                next if $more == 256 && $at == ($which ? 4 : 2);
                # The last digits keep the legal number: 2^64 ends in 616, and 3 behind it makes 619.
                $words[$at] = length $more > 300 ? $more : added($more, $legal[$at]);
                # Of GA94 the third flag above 1 is 15 too, and comes before 16.
                $refuses->($verbs[$which], "word $at and $label", "@words", 15);
            }
        }
    }
    $refuses->('replace', 'field 0', '64 1 0 0 0 11 94 2C', 7);
    $refuses->('replace', 'lines that fall', '64 1 0 0 1 11 94 2C 0 1 10 94 2C', 8);
    $refuses->('replace', 'five of priority 0', '64 1 0 ' . join(' ', map { "0 1 $_ 94 2C" } 10 .. 14), 9);
    $refuses->('replace', 'a value of a data group', '4 1 0', 15);
    $refuses->('replace', 'records under flag 0', '64 0 0 0 1 11 94 2C', 15);
    $refuses->('replace', '32 records', '64 1 0' . ' 0 1 11 94 2C' x 32, 15);
    $refuses->('ga94-replace', 'the third flag', '1 1 1 FF 0', 16);
    $refuses->('ga94-replace', '32 records', '1 1 0 FF 0' . ' 1 0 94 2C' x 32, 15);
    for my $case (
        ['no words', ''], ['white space', " \n\t"], ['one word', '64'], ['z missing', '64 1'], ['a data byte missing', '64 1 0 0 1 11 94'],
        ['a word too many', '64 1 0 0 1 11 94 2C 0'], ['a letter in a number', '64 1 x 0 1 11 94 2C', 1],
        ['a letter in the second line', "64 1 0\n0 1 l1 94 2C\n", 2], ['a letter behind digits', "64 1 0\n\n0 1 11x 94 2C\n", 3],
        ['a minus', '64 1 -0 0 1 11 94 2C', 1], ['a plus', '+64 1 0', 1], ['hex for a number', '0x40 1 0', 1],
        ['a point', '64 1 0.0', 1], ['a data byte of one digit', "64 1 0\r\n0 1 11 94 C", 2], ['a data byte of three digits', '64 1 0 0 1 11 94 02C', 1],
        ['a data byte with 0x', '64 1 0 0 1 11 94 0x2C', 1], ['a data byte that is none', '64 1 0 0 1 11 94 2G', 1], ['commas', '64,1,0', 1],
        ['none', "none\n", 1],
        ['a NUL byte', "64 1 0\0", 1], ['a NUL byte in the second line', "64 1 0\n0 1\0 11 94 2C", 2], ['a byte above 7F', "64\xA01 0", 1],
        ['5,000 digits and a letter', '64 1 ' . '0' x 5000 . 'x', 1], ['a word of 1 MB', 'x' x (1 << 20), 1], ['a head line', "priority field line data\n", 1],
    ) {
        my ($label, $words, $line) = @$case;
        $not->('replace', $label, $words, $line);
    }
    for my $case (
        ['no words', ''], ['four words', '1 1 0 FF'], ['a data byte missing', '1 1 0 FF 0 1 0 94'], ['em_data in one digit', '1 1 0 F 0', 1],
        ['em_data in three digits', '1 1 0 0FF 0', 1],
        ['a letter in the third line', "1 1 0 FF 0\n1 0 94 2C\n1 z 94 2C\n", 3], ['the words of the other verb', '64 1 0'], ['none', 'none', 1],
    ) {
        my ($label, $words, $line) = @$case;
        $not->('ga94-replace', $label, $words, $line);
    }
    # The words from standard input, which then cannot be the area too.
    for my $verb (qw(replace ga94-replace)) {
        my ($in, $out) = @{ $sample{$verb} }{qw(in out)};
        my $unit = $sample{$verb}{words}[1];
        my $area = save("$work/area", $in);
        accepted("$verb, --unit-file -", ask([$verb, '--unit-file', '-', $area], in => $unit), $out);
        accepted("$verb, --unit-file=-, -o onto the area", ask([$verb, '--unit-file=-', '-o', $area, $area], in => $unit), '',
            same('the area', content($area), $out));
        misused("$verb, --unit-file - and a fault", ask([$verb, '--unit-file', '-', $area], in => "1 1\nx"), 'standard input:2');
        misused("$verb, --unit-file - and no area", ask([$verb, '--unit-file', '-'], in => $unit));
        misused("$verb, --unit-file - and the area -", ask([$verb, '--unit-file', '-', '-'], in => $unit));
        broken("$verb, --unit-file -, no standard input", ask([$verb, '--unit-file', '-', $area], closed => '0'), 'standard input', reason(Errno::EBADF));
    }
    # What one verb prints, the other takes.
    for my $case (['area', 'replace', CASE_A], ['ga94', 'ga94-replace', CASE_Q]) {
        my ($list, $replace, $area) = @$case;
        my $value = ask([$list, '--value'], in => $area)->{out};
        accepted("$replace, what $list --value printed", ask([$replace, '--unit-file', save("$work/unit", $value)], in => ''), $area);
        accepted("$replace, the same into the area", ask([$replace, '--unit', $value], in => $area), $area);
    }
    # One in place of the other kind, which is foreign.
    accepted('replace behind GA94', ask(['replace', '-u', WORDS_A], in => CASE_Q), CASE_Q . CASE_A);
    accepted('ga94-replace behind SCTE 20', ask(['ga94-replace', '-u', WORDS_Q], in => CASE_A), CASE_A . CASE_Q);
}

sub try_film {
    my $name = 'standard input';
    my $a = hex_bytes(CASE_A);
    my @pair = (1, 0, 0, "\x94\x2C\0\0");
    my $is = sub {
        my ($label, $run, $waiting, @units) = @_;
        my @answers = { units => \@units };
        accepted("film, $label", ask(['film'], in => $run), film_text($waiting, @answers));
        accepted("film, $label, json", ask(['film', '-j'], in => $run), film_json($waiting, @answers));
        accepted("film, $label, each", ask(['film', '--each'], in => $run), film_text($waiting, @answers));
        accepted("film, $label, from a file", ask(['film', '--', save("$work/run", $run)]), film_text($waiting, @answers));
    };
    my @none = (0, 0, 0, "\0" x 4);
    $is->('one picture', "1 0 11 $a\n", undef, \@pair);
    $is->('no line feed at the end', "1 0 11 $a", undef, \@pair);
    $is->('CR LF', "1 0 11 $a\r\nclose\r\n", undef, \@pair);
    $is->('tabs and spaces', "\t1  0\t11 \t$a \n", undef, \@pair);
    $is->('hex in groups', '1 0 11 ' . join(' ', unpack '(A2)*', lc $a) . "\n", undef, \@pair);
    $is->('hex with commas and 0x', '1 0 11 ' . join(', ', map { "0x$_" } unpack '(A4)*', $a) . "\n", undef, \@pair);
    $is->('zeros in front', "01 000 0011 $a\n", undef, \@pair);
    $is->('5,000 zeros', join(' ', map { '0' x 5000 . $_ } 1, 0, 11) . " $a\n", undef, \@pair);
    $is->('no area', "1 0 11\n", undef, \@none);
    $is->('no area, told by a minus', "1 0 11 -\n", undef, \@none);
    $is->('an area without our unit', "1 0 11 " . hex_bytes(CASE_Q) . "\n", undef, \@none);
    $is->('an area beside GA94', "1 0 11 " . hex_bytes(CASE_Q . CASE_A) . "\n", undef, \@pair);
    $is->('three fields', "1 1 11 $a\n", [0, "\0\0"], \@pair);
    $is->('the bottom field first', "0 0 11 $a\n", [0, "\0\0"], [0, 1, 0, "\0\0\x94\x2C"]);
    $is->('empty lines', "\n\n1 0 11 $a\n\n\nclose\n\n", undef, \@pair);
    $is->('empty lines with CR LF', "\r\n1 0 11 $a\r\n\r\n", undef, \@pair);
    $is->('close alone', "close\n", undef);
    $is->('close twice', "close\nclose\n", undef);
    $is->('two runs', "1 1 11 $a\nclose\n0 0 11 $a\n1 0 11\nclose\n", undef, \@pair, \@none, [0, 1, 0, "\0\0\x94\x2C"], \@none, \@none);
    my @slot = (1, "\x94\x2C");
    $is->('a slot that waits, alone', "waiting 1 94 2C\n", [@slot]);
    $is->('a slot that waits, in lower case', "waiting 1 94 2c\n", [@slot]);
    $is->('an invalid slot that waits', "waiting 0 00 00\n", [0, "\0\0"]);
    $is->('a slot that waits, closed', "waiting 1 94 2C\nclose\n", undef, \@pair);
    $is->('a slot that waits, behind empty lines', "\n\nwaiting 1 94 2C\nclose\n", undef, \@pair);
    $is->('a slot that waits, then an odd one', "waiting 1 94 2C\n1 0 11\n", undef, \@pair, \@none);
    $is->('a slot that waits, then an even one', "waiting 1 94 2C\n0 0 11 $a\n", [0, "\0\0"], [1, 1, 0, "\x94\x2C\x94\x2C"]);
    $is->('a pair of zeros that waits', "waiting 1 00 00\nclose\n", undef, [1, 0, 0, "\0" x 4]);
    # Wrong use, and its line.
    for my $case (
        ['a slot that waits, in the middle', 2, "1 0 11 $a\nwaiting 1 94 2C\n"], ['two slots that wait', 2, "waiting 1 94 2C\nwaiting 1 94 2C\n"],
        ['two numbers', 1, "1 0\n"], ['one number', 3, "1 0 11\n\n1\n"], ['a letter', 2, "close\nx 0 11 -\n"], ['a letter in the line', 1, "1 0 1l -\n"],
        ['a minus', 1, "-1 0 11 -\n"], ['another word', 2, "close\nclosed\n"], ['upper case', 1, "CLOSE\n"], ['a word behind close', 1, "close 1\n"],
        ['an odd digit', 2, "1 0 11 $a\n1 0 11 0\n"],
        ['a digit that is none', 1, "1 0 11 0G\n"], ['bytes behind a minus', 1, "1 0 11 - 00\n"], ['a remark', 1, "# 1\n"], ['a NUL byte', 2, "close\n\0\n"],
        ['a NUL byte in an area', 1, "1 0 11 00\0\n"], ['a byte above 7F', 1, "1 0 11\xA0\n"], ['the line above units', 1, UNIT_HEAD],
        ['a unit', 1, "1 0 0 94 2C 00 00 0\n"], ['what waits with one byte', 1, "waiting 1 94\n"], ['what waits with three bytes', 1, "waiting 1 94 2C 00\n"],
        ['what waits with a long byte', 1, "waiting 1 094 2C\n"],
        ['what waits without anything', 1, "waiting\n"], ['what waits with a letter', 1, "waiting x 94 2C\n"], ['1 MB of a line', 1, 'x' x (1 << 20)],
        ['a letter behind 5,000 digits', 1, '1' x 5000 . "x 0 11 -\n"], ['a refusal', 1, "refused 5 at 40\n"],
    ) {
        my ($label, $line, $run) = @$case;
        for my $each ([], ['--each'], ['--json'], ['--json', '--each']) {
            misused("film, $label, @$each", ask(['film', @$each], in => $run), "$name:$line");
        }
        my $file = save("$work/run", $run);
        misused("film, $label, a file", ask(['film', $file]), "$file:$line");
    }
    # Refused, and its line.
    my $long = '1' . '0' x 4999;
    my $not = sub {
        my ($label, $run, $line, $number, $place, $waiting, @answers) = @_;
        refused("film, $label", ask(['film'], in => $run), $number, $place, "$name:$line");
        refused("film, $label, json", ask(['film', '--json'], in => $run), $number, $place, "$name:$line");
        my $file = save("$work/run", $run);
        refused("film, $label, a file", ask(['film', $file]), $number, $place, "$file:$line");
        my $folder = fresh();
        refused("film, $label, -o", ask(['film', '-o', "$folder/out"], in => $run), $number, $place, "$name:$line",
            same('the folder', left_beside($folder), ''));
        return unless @answers;
        for my $case (['each', [], film_text($waiting, @answers)], ['each, json', ['-j'], film_json($waiting, @answers)]) {
            my ($form, $more, $text) = @$case;
            my $answer = ask(['film', '--each', @$more], in => $run);
            case("film, $label, $form", $answer, at_status($answer, 1), same('standard output', $answer->{out}, $text),
                Run::told($answer, $number, $place, "$name:$line"));
        }
    };
    my $no = sub { return { refused => $_[0], place => $_[1], line => $_[2] } };
    my $yes = sub { return { units => [@_] } };
    $not->('an area refused in line 3', "1 0 11 $a\n\n1 0 11 000001B203\n1 0 11 $a\n", 3, 5, 40, undef, $yes->(\@pair), $no->(5, 40, 3), $yes->(\@pair));
    $not->('another line', "1 0 12 $a\n", 1, 22, 0, undef, $no->(22, 0, 1));
    my $third = hex_bytes(scte20_unit({ reserved => 0, flag => 1, z => 0, records => [[0, 3, 11, 'ab']] }));
    $not->('field 3 of two', "1 0 11 $third\n", 1, 21, 0, undef, $no->(21, 0, 1));
    $not->('two refused', "1 1 11 $a\n1 0 12 $a\n2 0 11 $a\nclose\n", 2, 22, 0, undef, $yes->(\@pair), $no->(22, 0, 2), $no->(15, 0, 3), $yes->(\@none));
    $not->('a slot that waits beyond a refusal', "1 1 11 $a\n\n\n1 0 32\n", 4, 15, 0, [0, "\0\0"], $yes->(\@pair), $no->(15, 0, 4));
    $not->("top_field_first $_", "$_ 0 11\n", 1, 15, 0, undef, $no->(15, 0, 1)) for 2, 257, 65537, 4294967297, '18446744073709551617', $long;
    $not->("repeat_first_field $_", "1 $_ 11\n", 1, 15, 0, undef, $no->(15, 0, 1)) for 2, 256, 65536, 4294967296, '18446744073709551616', $long;
    $not->("line $_", "1 0 $_\n", 1, 15, 0, undef, $no->(15, 0, 1)) for 32, 267, 65547, 4294967307, '18446744073709551627', $long;
    $not->('an area that is too long', '1 0 11 ' . hex_bytes(CASE_A . "\0" x 16374) . "\n", 1, 1, 0, undef, $no->(1, 0, 1));
    $not->('1 MB of an area', '1 0 11 ' . '00' x (1 << 19) . "\n", 1, 1, 0, undef, $no->(1, 0, 1));
    $not->('no start code', "1 0 11 01\n", 1, 2, 0, undef, $no->(2, 0, 1));
    # Line by line: what stands behind a refusal is not looked at, but with --each.
    $not->('a refusal before a letter', "1 0 32\nx\n", 1, 15, 0);
    misused('film, a refusal before a letter, each', ask(['film', '--each'], in => "1 0 32\nx\n"), "$name:2");
    misused('film, a letter before a refusal', ask(['film'], in => "x\n1 0 32\n"), "$name:1");
    # States that no call leaves: an invalid slot with bytes, a flag that is none.
    for my $state ('0 94 2C', '0 00 01', '0 01 00', '2 00 00', '256 00 00', '257 94 2C', "$long 94 2C") {
        $not->("what waits as $state, a picture", "waiting $state\n1 0 11 $a\n", 1, 15, 0);
        $not->("what waits as $state, closed", "waiting $state\nclose\n", 1, 15, 0);
        $not->("what waits as $state, alone", "waiting $state\n", 1, 15, 0);
    }
    # What film prints is taken by film again, and by reel where nothing waits.
    my $first = ask(['film'], in => "1 1 11 $a\n")->{out};
    my ($waits) = $first =~ /^(waiting.*\n)/m;
    $is->('what waits, as it was printed', $waits . "close\n", undef, \@none);
    my $lines = ask(['film'], in => "1 1 11 $a\n0 0 11 $a\nclose\n")->{out};
    accepted('reel, what film printed', ask(['reel', '--size', 10], in => $lines), "\0\x80\x94\x2C\0\0\x40\0\0\x94\x2C\0\0\0\0\0");
}

sub try_reel {
    my $name = 'standard input';
    my $unit = "1 0 0 94 2C 00 00\n";
    my $bytes = "\x80\x94\x2C\0\0";
    my $is = sub {
        my ($label, $options, $in, $out) = @_;
        accepted("reel, $label", ask(['reel', @$options], in => $in), $out);
        accepted("reel, $label, to hex", ask(['reel', '-t', 'hex', @$options], in => $in), hex_bytes($out) . "\n");
    };
    $is->('one unit', [], $unit, "\0$bytes");
    $is->('no line feed at the end', [], $unit =~ s/\n//r, "\0$bytes");
    $is->('lower case', [], lc $unit, "\0$bytes");
    $is->('CR LF', [], "flags 00\r\n" . UNIT_HEAD =~ s/\n/\r\n/r . $unit =~ s/\n/\r\n/r, "\0$bytes");
    $is->('zeros in front', [], '0' x 5000 . "1 000 00 94 2C 00 00\n", "\0$bytes");
    $is->('the line above alone', [], UNIT_HEAD, '');
    $is->('a line of flags alone', [], "flags 7F\n", '');
    $is->('a line of flags', [], "flags 7F\n$unit", "\x7F$bytes");
    $is->('a line of flags behind', [], "${unit}flags 7F\n", "\x7F$bytes");
    $is->('a line of flags in lower case', [], "flags 7f\n$unit", "\x7F$bytes");
    $is->('lines of flags that agree', ['--size', 1], "flags 7F\n" . UNIT_HEAD . $unit . "flags 7F\n" . UNIT_HEAD . $unit, "\x7F$bytes" x 2);
    $is->('a line and an option that agree', ['--flags', '7f'], "flags 7F\n$unit", "\x7F$bytes");
    $is->('an option', ['--flags=FF'], $unit, "\xFF$bytes");
    $is->('size 291', [], $unit x 291, "\0" . $bytes x 291);
    $is->('292 units', [], $unit x 292, "\0" . $bytes x 291 . "\0$bytes");
    $is->('582 units', ['--size', 291], $unit x 582, scalar(("\0" . $bytes x 291) . ("\0" . $bytes x 291)));
    $is->('size 1', ['--size', '1'], $unit x 3, "\0$bytes" x 3);
    $is->('a size with zeros in front', ['--size', '0' x 5000 . '1'], $unit x 2, "\0$bytes" x 2);
    $is->('the largest numbers', [], "1 1 63 FF FF FF FF\n", "\0\xFF\xFF\xFF\xFF\xFF");
    # Wrong use. A fault in the text has a line; flags that differ may be told at either.
    for my $case (
        ['lines of flags that differ', "flags 00\n${unit}flags 01\n"], ['a line and an option that differ', "flags 00\n$unit", '--flags', '01'],
        ['an option and a later line that differ', "$unit${unit}flags 01\n", '--flags', '00'],
    ) {
        my ($label, $in, @options) = @$case;
        misused("reel, $label", ask(['reel', @options], in => $in));
    }
    for my $case (
        ['what waits', 2, "${unit}waiting 1 94 2C\n"], ['what waits, first', 1, "waiting 1 94 2C\n$unit"], ['six words', 1, "1 0 0 94 2C 00\n"],
        ['eight words', 2, "${unit}1 0 0 94 2C 00 00 00\n"], ['a letter', 3, "$unit${unit}x 0 0 94 2C 00 00\n"], ['a minus', 1, "-1 0 0 94 2C 00 00\n"],
        ['a long byte', 1, "1 0 0 094 2C 00 00\n"], ['a short byte', 1, "1 0 0 9 2C 00 00\n"], ['a byte that is none', 1, "1 0 0 94 2G 00 00\n"],
        ['another line above', 1, "valid_1 valid_2 padding field1\n"], ['the line above another listing', 1, "priority field line data\n"],
        ['none', 1, "none\n"], ['a refusal', 1, "refused 5 at 40\n"], ['close', 1, "close\n"], ['flags without a byte', 1, "flags\n"],
        ['flags that are none', 1, "flags 7G\n"], ['flags twice in a line', 1, "flags 00 00\n"], ['a NUL byte', 2, "$unit\0\n"],
        ['a NUL byte in a unit', 1, "1 0 0 94 2C 00 00\0\n"], ['1 MB of a line', 1, '1 ' x (1 << 19)], ['JSON', 1, qq({"flags":0,"m":5}\n)],
    ) {
        my ($label, $line, $in) = @$case;
        misused("reel, $label", ask(['reel'], in => $in), "$name:$line");
        my $file = save("$work/run", $in);
        misused("reel, $label, a file", ask(['reel', $file]), "$file:$line");
    }
    # Numbers out of range, cut to fewer bits legal.
    for my $long (256, 65536, 4294967296, '18446744073709551616', '1' . '0' x 4999) {
        refused("reel, cc_valid_1 $long", ask(['reel'], in => "$long 0 0 94 2C 00 00\n"), 15, 0, $name);
        refused("reel, cc_valid_2 $long", ask(['reel'], in => "1 $long 0 94 2C 00 00\n"), 15, 0, $name);
        refused("reel, padding $long", ask(['reel'], in => "$unit${unit}1 0 $long 94 2C 00 00\n"), 15, 0, $name);
        next if $long == 256;
        refused("reel, size $long", ask(['reel', '--size', $long], in => $unit), 15, 0, $name);
        refused("reel, size $long and 1", ask(['reel', '--size', added($long, 1)], in => $unit), 15, 0, $name);
        refused("reel, size $long, no units", ask(['reel', '--size', $long], in => UNIT_HEAD), 15, 0, $name);
    }
    refused('reel, cc_valid_1 2', ask(['reel'], in => "2 0 0 94 2C 00 00\n"), 15, 0, $name);
    refused('reel, cc_valid_2 2', ask(['reel'], in => "0 2 0 94 2C 00 00\n"), 15, 0, $name);
    refused('reel, padding 64', ask(['reel'], in => "0 0 64 94 2C 00 00\n"), 15, 0, $name);
    refused("reel, size $_", ask(['reel', '--size', $_], in => $unit), 15, 0, $name) for 0, 292, 547;
    refused("reel, size $_, no units", ask(['reel', '--size', $_], in => UNIT_HEAD), 15, 0, $name) for 0, 292;
    # One wrong unit far behind: nothing is written, neither to a file.
    my $folder = fresh();
    refused('reel, a wrong unit behind 3,000', ask(['reel', '-o', "$folder/out"], in => $unit x 3000 . "2 0 0 94 2C 00 00\n"), 15, 0, $name,
        same('the folder', left_beside($folder), ''));
}

sub try_reel_list {
    my $name = 'standard input';
    my $unit = "\x80\x94\x2C\0\0";
    my @unit = (1, 0, 0, "\x94\x2C\0\0");
    for my $size (1, 2, 3, 290, 291) {
        my $reel = ("\x11" . $unit x $size) x 3 . "\x11$unit";
        my $text = payload_text(0x11, (\@unit) x $size) x 3 . payload_text(0x11, \@unit);
        accepted("reel-list, size $size", ask(['reel-list', '--size', $size], in => $reel), $text);
        accepted("reel-list, size $size, hex", ask(["reel-list", "--size=$size", '-f', 'hex'], in => hex_bytes($reel)), $text);
        # The payload that is cut short is the last one, and its length is the place. The others are not printed.
        for my $cut (1 .. 4) {
            my $answer = ask(['reel-list', '--size', $size], in => substr $reel, 0, -$cut);
            refused("reel-list, size $size, $cut bytes cut", $answer, 13, 6 - $cut, "$name: payload 3");
        }
        accepted("reel-list, size $size, flags behind it", ask(['reel-list', '--size', $size], in => "\x11" . $unit x $size . "\x22"),
            payload_text(0x11, (\@unit) x $size) . payload_text(0x22));
    }
    # Flags may differ from payload to payload: each is read by itself.
    accepted('reel-list, other flags', ask(['reel-list', '--size', 1], in => "\x11$unit\x22$unit"), payload_text(0x11, \@unit) . payload_text(0x22, \@unit));
    misused('reel, what reel-list printed of other flags', ask(['reel', '--size', 1], in => payload_text(0x11, \@unit) . payload_text(0x22, \@unit)));
    my $file = save("$work/in", "\0$unit\0\0");
    refused('reel-list, a file cut short', ask(['reel-list', $file]), 13, 8, "$file: payload 0");
    refused('reel-list, a file cut short, json', ask(['reel-list', '--json', $file]), 13, 8, "$file: payload 0");
    refused('reel-list, a file cut short, in the second payload', ask(['reel-list', '--size', 1, $file]), 13, 2, "$file: payload 1");
    # The size is judged before the input is cut.
    for my $size (0, 292, 547, 65536, 65537, 4294967296, 4294967297, '18446744073709551616', '18446744073709551617', '1' . '0' x 4999) {
        for my $in ('', "\0$unit", "\0\0") {
            my $answer = ask(['reel-list', '--size', $size], in => $in);
            case('reel-list, size ' . (length $size > 30 ? 'of 5,000 digits' : $size) . ', ' . length($in) . ' bytes', $answer, at_status($answer, 1),
                same('standard output', $answer->{out}, ''),
                $answer->{err} =~ /\Arefused 15 at 0\ncaptions: standard input: [^\n]+\n\z/ ? undef : "standard error was '$answer->{err}'");
        }
    }
}

1;
