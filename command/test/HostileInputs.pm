# Inputs that mean nothing, are empty, are at a limit, or are changed anywhere.
package HostileInputs;
use strict;
use warnings;
use Fcntl;
use Hostile;
use Listings;
use Run;
use Samples;

sub try_noise {
    my $noise = noise(1 << 20);
    $noise = "\x80" . substr $noise, 1;
    long_bytes('1 MB of noise', $noise);
    long_bytes('1 MB of noise and a byte', $noise . "\x55");
    long_bytes('1 MB of noise and four bytes', $noise . 'abcd');
    # Behind what is right at the beginning.
    refused('pes, noise behind data_identifier', ask(['pes'], in => "\x10\x55$noise"), 23, 1, 'standard input');
    refused('area, noise behind an area', ask(['area'], in => CASE_A . $noise), 1, 0, 'standard input');
    my $short = noise(3000) =~ s/\x00\x00\x01/\x00\x00\x02/gr;
    accepted('area, noise in a foreign unit', ask(['area'], in => "\0\0\1\xB2\x41$short"), "none\n");
    accepted('replace, noise in a foreign unit', ask(['replace', '-u', WORDS_A], in => "\0\0\1\xB2\x41$short"), "\0\0\1\xB2\x41$short" . CASE_A);
    accepted('payload, noise', ask(['payload'], in => substr $short, 0, 1456), reel_listed(substr($short, 0, 1456), 291));
}

sub try_zeros {
    my $zeros = "\0" x (1 << 20);
    long_bytes('1 MB of zeros', $zeros);
    # Digits and white space in their place.
    my ($digits, $spaces) = ('0' x (1 << 20), " \t\r\n," x (1 << 18));
    for my $verb (qw(area ga94)) {
        refused("$verb, 1 MB of digits", ask([$verb, '-f', 'hex'], in => $digits), 1, 0, 'standard input');
        accepted("$verb, 1 MB of white space", ask([$verb, '-f', 'hex'], in => $spaces), "none\n");
    }
    for my $verb (qw(packet multi to-pes)) {
        refused("$verb, 1 MB of digits", ask([$verb, '-f', 'hex'], in => $digits), 1, 1 << 18, 'standard input');
        refused("$verb, 1 MB of words", ask([$verb, '-f', 'hex'], in => '3 ' x (1 << 19)), 1, 1 << 19, 'standard input');
        refused("$verb, 1 MB of white space", ask([$verb, '-f', 'hex'], in => $spaces), 5, 0, 'standard input');
    }
    refused('payload, 1 MB of digits', ask(['payload', '-f', 'hex'], in => $digits), 1, 1 << 19, 'standard input');
    refused('pes, 1 MB of digits', ask(['pes', '-f', 'hex'], in => $digits), 6, 0, 'standard input');
    refused('replace, 1 MB of digits', ask(['replace', '-u', WORDS_A, '-f', 'hex'], in => $digits), 1, 0, 'standard input');
    accepted('reel-list, 1 MB of digits', ask(['reel-list', '-f', 'hex', '--size', 1], in => $digits . '00000000'), reel_listed("\0" x ((1 << 19) + 4), 1));
    accepted('film, 1 MB of line feeds', ask(['film'], in => "\n" x (1 << 20)), UNIT_HEAD);
    text_fault('film, 1 MB of digits', ask(['film'], in => $digits));
    text_fault('reel, 1 MB of digits', ask(['reel'], in => $digits));
    text_fault('replace, 1 MB of digits as a unit', ask(['replace', '--unit-file', save("$work/unit", $digits)], in => ''), "$work/unit");
    # Records too many, by far; of 257 and 65,537 one is left once the upper bits are lost.
    for my $n (257, 60_000, 65537) {
        for my $case (['replace', "64 1 0\n", "0 1 11 94 2C\n"], ['ga94-replace', "0 1 0 FF 0\n", "1 0 94 2C\n"]) {
            my ($verb, $front, $record) = @$case;
            refused("$verb, $n records", ask([$verb, '--unit-file', save("$work/unit", $front . $record x $n)], in => ''), 15, 0, 'standard input');
        }
    }
}

# long_bytes LABEL BYTES: what each verb answers for bytes that are longer than all it takes.
sub long_bytes {
    my ($label, $bytes) = @_;
    my $length = length $bytes;
    each_format(sub {
        my ($sample, $format, $words) = @_;
        my $verb = $sample->{verb};
        my $name = "$verb, $format, $label";
        my $answer = ask($words, in => $bytes);
        return text_fault($name, $answer) if $format =~ /hex|text/;
        return refused($name, $answer, 1, $length >> 1, 'standard input') if $sample->{from} eq 'words';
        return refused($name, $answer, 1, $length, 'standard input') if $verb eq 'payload';
        return refused($name, $answer, 6, 0, 'standard input') if $verb eq 'pes';
        return refused($name, $answer, 1, 0, 'standard input') if $verb ne 'reel-list';
        # Each byte is part of a payload: here of two units each, eleven bytes.
        my $rest = $length % 11;
        return refused($name, $answer, 13, $rest, 'standard input: payload ' . int $length / 11) if $rest && $rest % 5 != 1;
        accepted($name, $answer, reel_listed($bytes, 2));
    });
    for my $verb (qw(replace ga94-replace)) {
        text_fault("$verb, --unit-file of $label", ask([$verb, '--unit-file', save("$work/unit", $bytes)], in => $sample{$verb}{in}), "$work/unit");
    }
}

sub try_empty {
    my %answer = (
        area => "none\n", ga94 => "none\n", packet => [5, 0], multi => [5, 0], payload => [2, 0], pes => [5, 0], 'reel-list' => '', replace => CASE_A,
        'ga94-replace' => CASE_Q, 'to-pes' => [5, 0], film => UNIT_HEAD,
    );
    each_format(sub {
        my ($sample, $format, $words) = @_;
        my $answer = ask($words, in => '');
        my $expected = $answer{ $sample->{verb} };
        my $label = "$sample->{verb}, $format, no input";
        # A run of no units has a line all the same, so that what another command did not print is no run.
        return text_fault($label, $answer) if $sample->{verb} eq 'reel';
        return ref $expected ? refused($label, $answer, @$expected, 'standard input') : accepted($label, $answer, $expected);
    });
    accepted('area, no input, json', ask(['area', '--json'], in => ''), qq({"present":false}\n));
    accepted('ga94, no input, json', ask(['ga94', '--json'], in => ''), qq({"present":false}\n));
    accepted('area, no input, value', ask(['area', '--value'], in => ''), "none\n");
    accepted('ga94, no input, value', ask(['ga94', '--value'], in => ''), "none\n");
    accepted('film, no input, json', ask(['film', '--json'], in => ''), '');
    accepted('reel-list, no input, json', ask(['reel-list', '--json'], in => ''), '');
    accepted('replace, no input, to hex', ask(['replace', '-u', WORDS_A, '-t', 'hex'], in => ''), hex_bytes(CASE_A) . "\n");
    text_fault('reel, white space', ask(['reel'], in => $_)) for "\n", " \t\r\n\n", "\n" x 5000;
    text_fault('reel, no input, to hex', ask(['reel', '-t', 'hex'], in => ''));
    text_fault('reel, what film printed of a refused run', ask(['film'], in => "1 0 32\n", via => ['sh', '-c', '"$@" 2>/dev/null | "$1" reel', 'sh']));
    accepted('reel, no units', ask(['reel'], in => UNIT_HEAD), '');
    accepted('reel, no units, to hex', ask(['reel', '-t', 'hex'], in => UNIT_HEAD), "\n");
    my $folder = fresh();
    accepted('reel, no units, -o', ask(['reel', '-o', "$folder/out"], in => UNIT_HEAD), '', same('the file', content("$folder/out") // 'no file', ''));
    misused('reel, no input, -o', ask(['reel', '-o', "$folder/new"], in => ''), undef, same('the folder', left_beside($folder), 'out'));
}

sub try_lengths {
    my $name = 'standard input';
    my $head = "priority field line data\n";
    # An area ends with zeros of stuffing, so that it has any length.
    for my $length (16383, 16384) {
        my $area = CASE_D . "\0" x ($length - 6);
        accepted("area, $length bytes", ask(['area'], in => $area), $head);
        accepted("area, $length bytes, value", ask(['area', '--value'], in => $area), '64 0 ' . ($length - 6) . "\n");
        accepted("area, $length bytes in hex", ask(['area', '-f', 'hex'], in => hex_bytes($area)), $head);
        my $stuffing = $length - 15;
        accepted("ga94, $length bytes", ask(['ga94'], in => CASE_Q . "\0" x $stuffing), $sample{ga94}{out});
        accepted("replace, $length bytes", ask(['replace', '-u', '64 0 ' . ($length - 6)], in => ''), $area);
        accepted("replace, $length bytes, behind a foreign unit", ask(['replace', '-u', '64 0 0'], in => "\0\0\1\xB2" . 'A' x ($length - 10)),
            "\0\0\1\xB2" . 'A' x ($length - 10) . CASE_D);
        accepted("ga94-replace, $length bytes", ask(['ga94-replace', '-u', "1 1 0 FF $stuffing 1 0 94 2C"], in => ''), CASE_Q . "\0" x $stuffing);
    }
    for my $length (16385, 16386, 32768, 65536 + 11) {
        my $area = CASE_D . "\0" x ($length - 6);
        refused("area, $length bytes", ask(['area'], in => $area), 1, 0, $name);
        refused("area, $length bytes in hex", ask(['area', '-f', 'hex'], in => hex_bytes($area)), 1, 0, $name);
        refused("ga94, $length bytes", ask(['ga94'], in => $area), 1, 0, $name);
        refused("replace, $length bytes", ask(['replace', '-u', WORDS_A], in => $area), 1, 0, $name);
        refused("replace, $length bytes to be", ask(['replace', '-u', WORDS_A], in => "\0\0\1\xB2" . 'A' x ($length - 15)), 1, 0, $name) if $length < 16390;
    }
    refused('replace, a unit that is too long', ask(['replace', '-u', '64 0 16379'], in => ''), 1, 0, $name);
    refused('replace, stuffing of 16,385', ask(['replace', '-u', '64 0 16385'], in => ''), 15, 0, $name);
    # Words. 245 and 262 are the most, and half a word is 5 but behind these.
    my @empty = (0, 0, 0, 0, "\0" x 42);
    my @full = map { [1, 22 - $_, $_ % 4, $_ % 2, chr(65 + $_) x 42] } 0 .. 4;
    my $longest = packet_words(65535, @full);
    accepted('packet, 245 words', ask(['packet'], in => $longest), packet_text(65535, @full));
    accepted('packet, 245 words in hex', ask(['packet', '-f', 'hex'], in => hex_bytes($longest)), packet_text(65535, @full));
    my $most = multi_words(255, [1, 0, 0x60, 0x60, 'x' x 249]);
    my @fifty = map { [$_ % 32, $_ % 2, $_, 255 - $_, $_ < 4 ? 'y' : ''] } 0 .. 49;
    accepted('multi, 262 words', ask(['multi'], in => $most), multi_text(255, [1, 0, 0x60, 0x60, 'x' x 249]));
    accepted('multi, 50 inner packets', ask(['multi'], in => multi_words(0, @fifty)), multi_text(0, @fifty));
    for my $case (['packet', 245, $longest], ['multi', 262, $most], ['to-pes', 245, $longest]) {
        my ($verb, $limit, $words) = @$case;
        for my $format (qw(big little)) {
            my $try = sub {
                my ($label, $bytes, $number, $place) = @_;
                refused("$verb, $format, $label", ask([$verb, '-f', $format], in => $bytes), $number, $place, $name);
            };
            $try->('one byte', "\0", 5, 0);
            $try->("$limit words and a half", $words . "\2", 5, $limit);
            $try->("$limit words of zeros and a half", "\0" x (2 * $limit + 1), 5, $limit);
            $try->($limit - 1 . ' words and a half', "\0" x (2 * $limit - 1), 5, $limit - 1);
            $try->($limit + 1 . ' words', "\0" x (2 * $limit + 2), 1, $limit + 1);
            $try->($limit + 1 . ' words and a half', "\0" x (2 * $limit + 3), 1, $limit + 1);
            $try->('seven words', "\0" x 14, 5, 7);
            $try->('19 words', pack($format eq 'big' ? 'n*' : 'v*', 0, 0x3FF, 0x3FF, (0x200) x 16), 5, 19) if $limit == 245;
            $try->('words of zeros', "\0" x 40, 2, 1);
        }
        refused("$verb, hex, " . ($limit + 1) . ' words', ask([$verb, '-f', 'hex'], in => '0,' x ($limit + 1)), 1, $limit + 1, $name);
        refused("$verb, hex, words above 3FF", ask([$verb, '-f', 'hex'], in => '0 3FF 3FF ' . 'FFFF ' x 20), 11, 3, $name);
    }
    # A payload is a byte and units of five.
    for my $length (1, 6, 1451, 1456) {
        my $payload = noise($length);
        accepted("payload, $length bytes", ask(['payload'], in => $payload), reel_listed($payload, 291));
    }
    refused("payload, $_ bytes", ask(['payload'], in => "\0" x $_), 13, $_, $name) for 2, 5, 7, 1452, 1455;
    refused("payload, $_ bytes", ask(['payload'], in => "\0" x $_), 1, $_, $name) for 1457, 1461, 65536 + 6;
    # A data field has 31 units at most.
    my $unit = "\xFF\x2C" . "\xA5" x 44;
    my @unit = [255, undef, undef, "\xA5" x 44];
    accepted("pes, $_ units", ask(['pes'], in => "\x1F" . $unit x $_), pes_text(31, (@unit) x $_)) for 0, 1, 30, 31;
    refused('pes, 31 units and a byte', ask(['pes'], in => "\x1F" . $unit x 31 . "\0"), 24, 1427, $name);
    refused('pes, 32 units', ask(['pes'], in => "\x1F" . $unit x 32), 24, 1427, $name);
    refused('pes, 30 units and a half', ask(['pes'], in => "\x1F" . $unit x 30 . substr $unit, 0, 20), 5, 1383, $name);
}

# Holes in a file are zeros and take no room on the disk; the command takes memory for them. That is tried where there is enough of it.
sub try_huge {
    my $free = available();
    return skip('inputs of 1 GiB (--light)') if light();
    return skip('inputs of 1 GiB (less than 5 GiB of memory is free)') if $free < 5 << 20;
    my $gib = 1 << 30;
    my $file = "$work/huge";
    save($file, '');
    truncate $file, $gib or die "$file: $!\n";
    refused('payload, 1 GiB', ask(['payload', $file]), 1, $gib, $file);
    truncate $file, $gib + 1 or die "$file: $!\n";
    my $beyond = sub {
        my ($label, $answer, $name) = @_;
        case($label, $answer, at_status($answer, 3), same('standard output', $answer->{out}, ''),
            $answer->{err} =~ /\Acaptions: \Q$name\E: [^\n]+\n\z/ ? undef : "standard error was '$answer->{err}'");
    };
    $beyond->('payload, 1 GiB and a byte', ask(['payload', $file]), $file);
    $beyond->('area, 1 GiB and a byte in hex', ask(['area', '-f', 'hex', $file]), $file);
    sysopen my $zero, '/dev/zero', O_RDONLY or die "/dev/zero: $!\n";
    $beyond->('packet, zeros without end', ask(['packet'], stdin => $zero), 'standard input');
    $beyond->('replace, words without end', ask(['replace', '--unit-file', '/dev/zero'], in => ''), '/dev/zero');
    unlink $file;
}

# KiB of memory that are free.
sub available {
    my $text = content('/proc/meminfo') // return 0;
    return $text =~ /^MemAvailable:\s+(\d+) kB/m ? $1 : 0;
}

# What is answered is not known beforehand. But it is one of the answers that there are, in the form that it has.
sub try_mutants {
    my $count = light() ? 60 : 150;
    note("mutants: $count of each verb");
    for my $sample (@samples) {
        my @formats = formats($sample);
        for my $index (1 .. $count) {
            my $format = @formats ? $formats[$index % @formats] : 'text';
            my $in = $format eq 'text' ? $sample->{in} : formatted($sample, $format);
            $in = mutant($in, $format =~ /hex|text/) for 1 .. 1 + noise_byte() % 3;
            my @words = ($sample->{verb}, @{ $sample->{words} }, $format eq 'text' ? () : ('-f', $format));
            push @words, '--each' if $sample->{verb} eq 'film' && $index % 2;
            well_formed("mutant $index", ask(\@words, in => $in));
        }
    }
    for my $verb (qw(replace ga94-replace)) {
        for my $index (1 .. $count) {
            my $words = $sample{$verb}{words}[1];
            $words = mutant($words, 1) for 1 .. 1 + noise_byte() % 3;
            well_formed("mutant $index of a unit", ask([$verb, '--unit-file', save("$work/unit", $words)], in => $sample{$verb}{in}));
        }
    }
}

sub mutant {
    my ($text, $is_text) = @_;
    my $at = length $text ? (noise_byte() << 8 | noise_byte()) % length $text : 0;
    my $way = noise_byte() % 7;
    my @pieces = ("\n", ' ', "\0", '-', ',', '0x', '9999999999', '00', "\r", 'close', 'waiting', "\xFF", '1', 'F');
    my $piece = $is_text ? $pieces[noise_byte() % @pieces] : chr noise_byte();
    return substr($text, 0, $at) . $piece . substr $text, $at if $way == 0;
    return substr($text, 0, $at) . substr $text, $at + 1 if $way == 1 && length $text;
    return substr($text, 0, $at) . $piece . substr $text, $at + 1 if $way <= 3 && length $text;
    return substr $text, 0, $at if $way == 4;
    return $text . substr $text, $at if $way == 5;
    my ($left, $right) = (substr($text, 0, $at), substr $text, $at);
    return $right . $left;
}

sub well_formed {
    my ($label, $answer) = @_;
    my ($status, $out, $err) = @$answer{qw(status out err)};
    my $each = $answer->{asked} =~ / --each /;
    my $is = $status eq 0 ? $err eq ''
        : $status eq 1 ? ($each || $out eq '') && $err =~ /\Arefused [1-9]\d? at \d+\ncaptions: [^\n]+: [^\n]+\n/
        : $status eq 2 ? $out eq '' && $err =~ /\Acaptions: [^\n]+:\d+: [^\n]+\n/
        : 0;
    case($label, $answer, $is ? undef : "no answer has this form: status $status, standard output of " . length($out) . " bytes, standard error '$err'");
}

1;
