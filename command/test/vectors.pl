#!/usr/bin/perl
# command/test/vectors.pl COMMAND [WORD..]: each line of vectors/*.txt by the verbs that can take it. What has to be printed, said and answered is made
# from the line's answer alone. The words are those of Run.pm.
#
# Each line is run in several forms: as a listing and as JSON, by each format of the input, from a file and from standard input, to standard output and
# to a file.
use strict;
use warnings;
use Cwd qw(abs_path);
use FindBin;
use lib $FindBin::Bin;
use Listings;
use Run;
use Vectors;

begin('vectors');
my @files = map { abs_path($_) } words_left();
chdir "$FindBin::Bin/../.." or die "the root of the repository: $!\n";
my $folder = work() . '/o';
mkdir $folder or die "$folder: $!\n";
my $input = work() . '/input';

my %run = (
    'area read' => \&area_read,       'area cclist' => \&area_cclist,     'area replace' => \&area_replace, 'area putback' => \&area_putback,
    'unit write' => \&area_replace,   'ga94 read' => \&ga94_read,         'ga94 replace' => \&ga94_replace, 'ga94 write' => \&ga94_replace,
    'packet read' => \&packet_read,   'packet write' => \&packet_write,   'payload read' => \&payload_read, 'payload write' => \&payload_write,
    'payload reel' => \&payload_reel, 'pes read' => \&pes_read,           'pes write' => \&pes_write,       'pes convert' => \&pes_convert,
    'multi read' => \&multi_read,     'multi write' => \&multi_write,     'film run' => \&film_run,
);

my (%seen, %lines, %taken);
my $turn = 0;
my $vector;

vectors(\&one, @files ? @files : sort glob 'vectors/*.txt');
for my $kind (sort keys %lines) {
    note(sprintf '%s: %d lines, %d taken', $kind, $lines{$kind}, $taken{$kind} // 0);
}
for my $kind (sort keys %run) {
    failed("$kind: no line was taken", undef, 'there is none, or each is skipped') if every() == 1 && $lines{$kind} && !$taken{$kind};
}
note('each line in one of its forms, by turns (the forms of all lines are run without --light)') if light();
finish();

sub one {
    ($vector) = @_;
    my $kind = $vector->{kind};
    return skip('lines that are wrong on purpose') if $vector->{wrong};
    return if $seen{$kind}++ % every();
    $lines{$kind}++;
    my $run = $run{$kind};
    return skip("$kind: there is no verb for it") unless $run;
    $taken{$kind}++ if $run->($vector->{given}, $vector->{answer});
}

# ---- Forms ----

# forms FORM..: runs them all, or one of them by turns. A form is [NAME, WORDS, INPUT, OUTPUT].
sub forms {
    my @forms = @_;
    @forms = $forms[$vector->{line} % @forms] if light();
    ask_for(@$_) for @forms;
    return 1;
}

# ask_for NAME WORDS INPUT OUTPUT: one form. The input comes from a file or from standard input, by turns, and each fifth output goes to a file. The answer
# is the line's: this output, or its refusal.
sub ask_for {
    my ($form, $words, $bytes, $output) = @_;
    $turn++;
    my @words = @$words;
    my $verb = shift @words;
    my ($name, %how) = ('standard input');
    if ($turn % 2) {
        save($name = $input, $bytes);
        @words = $turn % 4 == 1 ? (@words, $input) : ($input, @words);
    }
    else {
        $how{in} = $bytes;
        @words = $turn % 4 == 2 ? @words : (@words, '-');
    }
    my $file = $turn % 5 ? undef : "$folder/out";
    push @words, $turn % 10 ? '-o' : '--output', $file if defined $file;
    my $answer = ask([$verb, @words], %how);
    my ($refused, $place) = @{ $vector->{answer} }{qw(refused place)};
    my $label = "$vector->{at} $vector->{kind} $vector->{tag}, $form";
    # What went to a file is judged as if it had gone to standard output, which has to be empty.
    my @faults;
    if (defined $file) {
        push @faults, same('standard output beside -o', $answer->{out}, '');
        push @faults, same('the folder of -o', left_beside($folder), defined $refused ? '' : 'out');
        $answer->{out} = content($file) // '';
        unlink glob "$folder/*";
    }
    return refused($label, $answer, $refused, $place, $name, @faults) if defined $refused;
    return accepted($label, $answer, $output, @faults);
}

# The bytes of an input as hex text, in one of several ways of writing it.
sub hex_text {
    my ($bytes) = @_;
    my @pairs = unpack '(H2)*', $bytes;
    my $way = $vector->{line} % 6;
    return join('', map { uc } @pairs) . "\n" if $way == 0;
    return join(' ', @pairs) if $way == 1;
    return join(',', map { '0x' . uc } @pairs) . "\n" if $way == 2;
    return join(", \t", unpack '(A14)*', join '', @pairs) . "\r\n" if $way == 3;
    return join("\r\n", map { join ' ', unpack '(A2)*', $_ } unpack '(A32)*', uc join '', @pairs) . "\r\n" if $way == 4;
    return "\n\n  " . join("\n", map { "0x$_" } unpack '(A10)*', join '', @pairs) . " \n,\n";
}

# The words of a packet as hex text.
sub hex_words {
    my ($bytes) = @_;
    my @words = unpack '(n)*', $bytes;
    my $way = $vector->{line} % 6;
    return join(' ', map { sprintf '%X', $_ } @words) . "\n" if $way == 0;
    return join(',', map { sprintf '0x%03x', $_ } @words) if $way == 1;
    return uc(unpack 'H*', $bytes) . "\n" if $way == 2;
    return join("\r\n", map { sprintf '%04X', $_ } @words) . "\r\n" if $way == 3;
    return join(", \n", unpack '(A12)*', unpack 'H*', $bytes) if $way == 4;
    return join("\t", map { "0x$_" } unpack '(A8)*', uc unpack 'H*', $bytes) . "\n";
}

sub little { return pack '(v)*', unpack '(n)*', $_[0] }

# ---- Areas ----

# The unit that an answer of reading tells, or nothing for none.
sub area_unit {
    my ($answer) = @_;
    return undef unless exists $answer->{reserved};
    my @records = records_of($answer->{recs});
    die "$vector->{at}: n is not the number of records\n" if @records != $answer->{n};
    return { %$answer{qw(reserved flag z)}, records => \@records };
}

sub area_read {
    my ($given, $answer) = @_;
    my $area = bytes_of($given->{in});
    my $refused = defined $answer->{refused};
    my $unit = $refused ? undef : area_unit($answer);
    my $hex = hex_text($area);
    return forms(
        ['text', ['area'], $area, area_text($unit)],
        ['json', ['area', $vector->{line} % 2 ? '--json' : '-j'], $area, area_json($unit)],
        ['value', ['area', '--value'], $area, area_value($unit)],
        ['hex', ['area', $vector->{line} % 2 ? '--from=hex' : ('-f', 'hex')], $hex, area_text($unit)],
        ['hex, json', ['area', '--from', 'hex', '--json'], $hex, area_json($unit)],
    );
}

sub area_cclist {
    my ($given, $answer) = @_;
    my ($text) = $answer->{text} =~ /\Aprint (.*)\z/ or die "$vector->{at}: no text\n";
    $text =~ s/\\n/\n/g;
    @$answer{qw(refused place)} = ($1, $2) if $text =~ /\Arefused (\d+) at (\d+)\n\z/;
    my $area = bytes_of($given->{in});
    return forms(['text', ['area'], $area, $text], ['hex', ['area', '-f', 'hex'], hex_text($area), $text]);
}

# The value that a line of writing gives, or nothing where the command cannot be told it.
sub area_given {
    my ($given) = @_;
    my @records = records_of($given->{recs});
    return skip("$vector->{kind}: fewer records than n") && undef if @records < $given->{n};
    return { %$given{qw(reserved flag z)}, records => [@records[0 .. $given->{n} - 1]] };
}

# Writing a unit is replacing in an area of no bytes.
sub area_replace {
    my ($given, $answer) = @_;
    return skip("$vector->{kind}: refused for want of room, which the command always has") && 0 if ($answer->{refused} // 0) == 14;
    my $unit = area_given($given) or return 0;
    my $out = defined $answer->{refused} ? '' : bytes_of($answer->{out});
    return replace('replace', bytes_of($given->{in} // '-'), area_words($unit), area_value($unit), $out);
}

# replace VERB AREA WORDS LINES OUT: the unit as one argument and as lines of a file; bytes and hex.
sub replace {
    my ($verb, $area, $words, $lines, $out) = @_;
    my $file = save(work() . '/unit', $lines);
    return forms(
        ['unit', [$verb, $vector->{line} % 2 ? '--unit' : '-u', $words], $area, $out],
        ['unit file, to hex', [$verb, '--unit-file', $file, $vector->{line} % 2 ? '--to=hex' : ('-t', 'hex')], $area, hex_bytes($out) . "\n"],
        ['from hex', [$verb, "--unit=$words", '--from', 'hex', '--to', 'bytes'], hex_text($area), $out],
    );
}

# The new unit in, and the old one back.
sub area_putback {
    my ($given, $answer) = @_;
    my $area = bytes_of($given->{in});
    if ($answer->{text} eq 'ok nothing') {
        my $said = ask(['area', '--value'], in => $area);
        return failed("$vector->{at} putback, nothing", $said, $said->{status} eq 0 && $said->{out} ne "none\n" ? 'a unit is there' : undef);
    }
    my $unit = area_given($given) or return 0;
    my ($middle, $back) = map { bytes_of($answer->{$_}) } qw(middle back);
    my $old = ask(['area', '--value'], in => $area);
    ask_for('middle', ['replace', '--unit', area_words($unit)], $area, $middle);
    ask_for('back', ['replace', '--unit-file', save(work() . '/unit', $old->{out})], $middle, $back);
    return 1;
}

# ---- GA94 ----

sub ga94_unit {
    my ($answer) = @_;
    return undef unless exists $answer->{flags};
    my @records = ga94_records_of($answer->{recs});
    die "$vector->{at}: n is not the number of records\n" if @records != $answer->{n};
    return { %$answer{qw(em z)}, flags => [split //, $answer->{flags}], records => \@records };
}

sub ga94_read {
    my ($given, $answer) = @_;
    my $area = bytes_of($given->{in});
    my $unit = defined $answer->{refused} ? undef : ga94_unit($answer);
    my $hex = hex_text($area);
    return forms(
        ['text', ['ga94'], $area, ga94_text($unit)],
        ['json', ['ga94', '--json'], $area, ga94_json($unit)],
        ['value', ['ga94', '--value'], $area, ga94_value($unit)],
        ['hex', ['ga94', '--from', 'hex'], $hex, ga94_text($unit)],
    );
}

sub ga94_replace {
    my ($given, $answer) = @_;
    return skip("$vector->{kind}: refused for want of room, which the command always has") && 0 if ($answer->{refused} // 0) == 14;
    my @records = ga94_records_of($given->{recs});
    return skip("$vector->{kind}: fewer records than n") && 0 if @records < $given->{n};
    return skip("$vector->{kind}: an em_data of more than two digits") && 0 if $given->{em} > 255;
    my @flags = $given->{flags} =~ /\./ ? split(/\./, $given->{flags}) : split //, $given->{flags};
    my $unit = { %$given{qw(em z)}, flags => \@flags, records => [@records[0 .. $given->{n} - 1]] };
    my $out = defined $answer->{refused} ? '' : bytes_of($answer->{out});
    return replace('ga94-replace', bytes_of($given->{in} // '-'), ga94_words($unit), ga94_value($unit), $out);
}

# ---- Packets and multipackets ----

# word_forms VERB WORDS TEXT JSON: by each order of bytes and by hex.
sub word_forms {
    my ($verb, $words, $text, $json) = @_;
    my $odd = $vector->{line} % 2;
    return forms(
        ['big', [$verb], $words, $text],
        ['big, json', [$verb, '--json', '--from', 'big'], $words, $json],
        ['little', [$verb, '--from', 'little', $odd ? '--json' : ()], little($words), $odd ? $json : $text],
        ['hex', [$verb, '--from=hex', $odd ? () : '--json'], hex_words($words), $odd ? $text : $json],
    );
}

sub packet_read {
    my ($given, $answer) = @_;
    my @value = defined $answer->{refused} ? (0) : ($answer->{counter}, slots_of($answer->{slots}));
    return word_forms('packet', bytes_of($given->{in}), packet_text(@value), packet_json(@value));
}

# What is written, read: a writer without a verb, whose output a verb can list.
sub packet_write {
    my ($given, $answer) = @_;
    return skip('packet write: refused, and there is no verb for it') && 0 if defined $answer->{refused};
    my @value = ($given->{counter}, slots_of($given->{slots}));
    return word_forms('packet', bytes_of($answer->{out}), packet_text(@value), packet_json(@value));
}

sub multi_read {
    my ($given, $answer) = @_;
    my @value = defined $answer->{refused} ? (0) : ($answer->{priority}, inners_of($answer->{inners}));
    return word_forms('multi', bytes_of($given->{in}), multi_text(@value), multi_json(@value));
}

sub multi_write {
    my ($given, $answer) = @_;
    return skip('multi write: refused, and there is no verb for it') && 0 if defined $answer->{refused};
    my @value = ($given->{priority}, inners_of($given->{inners}));
    return word_forms('multi', bytes_of($answer->{out}), multi_text(@value), multi_json(@value));
}

# ---- Data fields ----

sub pes_forms {
    my ($field, @value) = @_;
    return forms(
        ['text', ['pes'], $field, pes_text(@value)],
        ['json', ['pes', '--json'], $field, pes_json(@value)],
        ['hex', ['pes', '--from', 'hex'], hex_text($field), pes_text(@value)],
    );
}

sub pes_read {
    my ($given, $answer) = @_;
    return pes_forms(bytes_of($given->{in}), defined $answer->{refused} ? (0) : ($answer->{identifier}, data_units_of($answer->{units})));
}

sub pes_write {
    my ($given, $answer) = @_;
    return skip('pes write: refused, and there is no verb for it') && 0 if defined $answer->{refused};
    return pes_forms(bytes_of($answer->{out}), $given->{identifier}, data_units_of($given->{units}));
}

sub pes_convert {
    my ($given, $answer) = @_;
    return skip('pes convert: refused for want of room, which the command always has') && 0 if ($answer->{refused} // 0) == 14;
    my $words = bytes_of($given->{in});
    my $out = defined $answer->{refused} ? '' : bytes_of($answer->{out});
    forms(
        ['big', ['to-pes'], $words, $out],
        ['little, to hex', ['to-pes', '--from', 'little', '--to', 'hex'], little($words), hex_bytes($out) . "\n"],
        ['hex', ['to-pes', '--from', 'hex', '--to=bytes'], hex_words($words), $out],
    );
    return 1 if defined $answer->{refused};
    my @value = pes_taken($out);
    ask_for('and read', ['pes'], $out, pes_text(@value));
    return 1;
}

# ---- Payloads ----

sub payload_read {
    my ($given, $answer) = @_;
    my @value = defined $answer->{refused} ? (0) : ($answer->{flags}, units_of($answer->{units}));
    die "$vector->{at}: m is not the number of units\n" if !defined $answer->{refused} && $answer->{m} != @value - 1;
    my $payload = bytes_of($given->{in});
    return forms(
        ['text', ['payload'], $payload, payload_text(@value)],
        ['json', ['payload', '--json'], $payload, payload_json(@value)],
        ['hex', ['payload', '-f', 'hex'], hex_text($payload), payload_text(@value)],
    );
}

# A payload of one unit or more is a reel of one payload.
sub payload_write {
    my ($given, $answer) = @_;
    return skip('payload write: refused for want of room, which the command always has') && 0 if ($answer->{refused} // 0) == 14;
    my @units = units_of($given->{units});
    return skip('payload write: no unit, or more than 291, or fewer than m') && 0 if $given->{m} < 1 || $given->{m} > 291 || @units < $given->{m};
    return reel($given->{flags}, 291, @units[0 .. $given->{m} - 1]);
}

sub payload_reel {
    my ($given, $answer) = @_;
    return skip('payload reel: refused for want of room, which the command always has') && 0 if ($answer->{refused} // 0) == 14;
    return reel($given->{flags}, $given->{size}, units_of($given->{units}));
}

# reel FLAGS SIZE UNIT..: the run as text, its flags by an option, by a line or by both; then what was written, listed.
sub reel {
    my ($flags, $size, @units) = @_;
    my $answer = $vector->{answer};
    my $option = sprintf $vector->{line} % 2 ? '%02X' : '%02x', $flags;
    my $line = sprintf "flags %02X\n", $flags;
    # A run of no units is the line above them.
    my $units = @units ? unit_lines(@units) : UNIT_HEAD;
    my @size = $size == 291 && $vector->{line} % 2 ? () : ('--size', $size);
    my $out = defined $answer->{refused} ? '' : bytes_of($answer->{out});
    my @forms = (
        ['flags by an option', ['reel', '--flags', $option, @size], $units, $out],
        ['flags by both, to hex', ['reel', '--to', 'hex', "--flags=$option", @size], $line . UNIT_HEAD . $units, hex_bytes($out) . "\n"],
        ['flags by a line', ['reel', @size], $line . UNIT_HEAD . $units . $line, $out],
    );
    # A byte of flags that is none can be told by the option alone.
    @forms = $forms[0] if $flags > 255;
    forms(@forms);
    return 1 if defined $answer->{refused};
    my $list = reel_text($flags, $size, @units);
    forms(
        ['and listed', ['reel-list', @size], $out, $list],
        ['and listed, json', ['reel-list', '--json', @size], $out, reel_json($flags, $size, @units)],
        ['and listed, hex', ['reel-list', '--from=hex', @size], hex_text($out), $list],
        ['and made again of the list', ['reel', @size], $list eq '' ? UNIT_HEAD : $list, $out],
    );
    return 1;
}

# ---- Film ----

sub film_run {
    my ($given, $answer) = @_;
    my ($told, $waiting) = $answer->{text} =~ /\Arun (\S+) waiting=(\S+)\z/ or die "$vector->{at}: no run\n";
    my @calls = split /;/, $given->{calls};
    my @told = split /;/, $told;
    die "$vector->{at}: not one answer for each call\n" if @calls != @told;
    $waiting = $waiting eq '-' ? undef : [$waiting =~ /\A(\d)\./, bytes_of($waiting =~ s/\A\d\.//r)];
    my (@lines, @answers, $untold);
    for my $index (0 .. $#calls) {
        my $line = film_line($calls[$index]);
        if (!defined $line) {
            # No area tells this value. Where the call is refused, another that is refused stands in its place: neither may change anything.
            return skip('film run: lines with an accepted value that no area has room for') && 0 unless $told[$index] =~ /\Arefused:/;
            $untold++;
            push @lines, "1 0 11 000001B203\n";
            push @answers, { refused => 5, place => 40, line => $index + 1 };
            next;
        }
        push @lines, $line;
        push @answers, $told[$index] =~ /\Arefused:(\d+):(\d+)\z/
            ? { refused => $1, place => $2, line => $index + 1 }
            : { units => [units_of($told[$index] =~ s/\Aok://r)] };
    }
    if ($untold) {
        skip('film run: calls with a value that no area tells (one that is refused otherwise stands in the place of each)', $untold);
        skip('film run: lines with such calls', 1);
    }
    my $run = join '', @lines;
    my ($text, $json) = (film_text($waiting, @answers), film_json($waiting, @answers));
    my ($first) = grep { $_->{refused} } @answers;
    my @forms = (['text', [], $text], ['json', ['--json'], $json], ['each', ['--each'], $text], ['each, json', ['--json', '--each'], $json]);
    @forms = $forms[$vector->{line} % @forms] if light();
    film_form($run, $first, @$_) for @forms;
    film_in_two($waiting, \@lines, \@answers) if @lines > 1;
    film_to_reel($run, @answers) unless $first || $waiting;
    return 1;
}

# The line of a call, or nothing where no area holds its value. A picture without records may come without a unit, too.
sub film_line {
    my ($call) = @_;
    return "close\n" if $call eq 'close';
    my ($how, $value, $records) = split m{/}, $call;
    my @how = split /\./, $how;
    my ($reserved, $flag, $n, $z) = split /\./, $value;
    my @records = records_of($records);
    return undef if @records < $n;
    my $unit = { reserved => $reserved, flag => $flag, z => $z, records => [@records[0 .. $n - 1]] };
    return undef unless is_legal($unit);
    return join(' ', @how) . ($vector->{line} % 3 ? " -\n" : "\n") if !$n && $vector->{line} % 2;
    my $hex = hex_bytes(scte20_unit($unit));
    $hex = join ' ', unpack '(A8)*', lc $hex if $vector->{line} % 4 == 2;
    return join(' ', @how, $hex) . "\n";
}

sub film_form {
    my ($run, $first, $form, $options, $output) = @_;
    $turn++;
    my $label = "$vector->{at} film run $vector->{tag}, $form";
    my ($name, @file, %how) = ('standard input');
    if ($turn % 2) { @file = $name = save($input, $run) }
    else           { $how{in} = $run }
    my $answer = ask(['film', @$options, @file], %how);
    return accepted($label, $answer, $output) unless $first;
    my $where = "$name:$first->{line}";
    return refused($label, $answer, @$first{qw(refused place)}, $where) unless grep { $_ eq '--each' } @$options;
    my $status = $answer->{status} eq 1 ? undef : "status was $answer->{status}, has to be 1";
    return case($label, $answer, $status, same('standard output', $answer->{out}, $output), Run::told($answer, @$first{qw(refused place)}, $where));
}

# A run in two parts, the second with the line of what waits at the end of the first, sends what the run sends.
sub film_in_two {
    my ($waiting, $lines, $answers) = @_;
    my $cut = 1 + $vector->{line} % $#$lines;
    my $label = "$vector->{at} film run $vector->{tag}, cut behind line $cut";
    my @part = (join('', @$lines[0 .. $cut - 1]), join('', @$lines[$cut .. $#$lines]));
    my $first = ask(['film', '--each'], in => $part[0]);
    my $handed = $first->{out} =~ s/^(waiting .*\n)\z//m ? $1 : '';
    my @before = @$answers[0 .. $cut - 1];
    case("$label, the first part", $first, same('standard output', $first->{out}, film_text(undef, @before)));
    my @after = @$answers[$cut .. $#$answers];
    my $second = ask(['film', '--each'], in => $handed . $part[1]);
    case("$label, the second part", $second, same('standard output', $second->{out}, film_text($waiting, @after)),
        $second->{status} eq ((grep { $_->{refused} } @after) ? 1 : 0) ? undef : "status was $second->{status}");
}

# What film prints, reel takes.
sub film_to_reel {
    my ($run, @answers) = @_;
    my $listed = ask(['film'], in => $run);
    my $size = 1 + $vector->{line} % 3;
    my @units = map { @{ $_->{units} } } @answers;
    my $out = '';
    my @left = @units;
    while (my @payload = splice @left, 0, $size) {
        $out .= "\0" . join '', map { pack('C', $_->[0] << 7 | $_->[1] << 6 | $_->[2]) . $_->[3] } @payload;
    }
    accepted("$vector->{at} film run $vector->{tag}, into a reel", ask(['reel', '--size', $size], in => $listed->{out}), $out);
}
