# One legal input for each verb, with what the command must print for it; and the layouts of words, from the tables of RULES.
package Samples;
use strict;
use warnings;
use Exporter 'import';
use Listings;

our @EXPORT = qw(samples CASE_A CASE_D CASE_Q WORDS_A WORDS_Q packet_words multi_words anc_words);

use constant {
    CASE_A  => pack('H*', '000001B2038108ACA4D200'),
    CASE_D  => pack('H*', '000001B20380'),
    CASE_Q  => pack('H*', '000001B24741393403C1FFFC942CFF'),
    WORDS_A => '64 1 0 0 1 11 94 2C',
    WORDS_Q => '1 1 0 FF 0 1 0 94 2C',
};

# A byte as an ancillary word: b8 makes the ones even, b9 is the opposite of b8. The sum of words: nine bits of it, and b9 the opposite of b8.
sub anc_word  { my ($byte) = @_; return (unpack('%32b*', pack 'C', $byte) % 2 ? 0x100 : 0x200) | $byte }
sub anc_words { return map { anc_word($_) } @_ }

sub anc_sum {
    my $sum = 0;
    $sum += $_ & 511 for @_;
    $sum %= 512;
    return $sum & 256 ? $sum : $sum | 512;
}

# The words of a packet, as bytes with the high one first: counter, slots.
sub packet_words {
    my ($counter, @slots) = @_;
    my @words = anc_words(0x43, 0x02, packet_user($counter, @slots));
    return pack 'n*', 0, 0x3FF, 0x3FF, @words, anc_sum(@words);
}

# DC and the user bytes.
sub packet_user {
    my ($counter, @slots) = @_;
    my @full = grep { $_->[0] } @slots;
    my $length = 13 + 45 * @full;
    my @bytes = (0x51, 0x15, $length, 0x02, map({ $_->[3] << 7 | $_->[2] << 5 | $_->[1] } @slots),
        map({ (0x55, 0x55, 0x27, unpack 'C*', $_->[4]) } @full), 0x74, $counter >> 8, $counter & 255);
    my $sum = 0;
    $sum += $_ for @bytes;
    return $length, @bytes, -$sum & 255;
}

# The words of a multipacket: priority, inner packets of line, field, did, sdid, user bytes.
sub multi_words {
    my ($priority, @inners) = @_;
    my @user = anc_words($priority);
    for my $inner (@inners) {
        my ($line, $field, $did, $sdid, $data) = @$inner;
        my @words = anc_words($did, $sdid, length $data, unpack 'C*', $data);
        push @user, anc_words($field << 5 | $line), @words, anc_sum(@words);
    }
    my @words = (anc_words(0x43, 0x03, scalar @user), @user);
    return pack 'n*', 0, 0x3FF, 0x3FF, @words, anc_sum(@words);
}

# The samples: verb, words that it needs, formats that the input has, the input, the output, and JSON where there is that.
sub samples {
    my @records = ([0, 1, 11, "\x94\x2C"]);
    my $unit = { reserved => 64, flag => 1, z => 0, records => \@records };
    my $ga94 = { flags => [1, 1, 0], em => 255, z => 0, records => [[1, 0, "\x94\x2C"]] };
    my @empty = (0, 0, 0, 0, "\0" x 42);
    my $row = join '', map { chr($_ * 5 + 3) } 0 .. 41;
    my @slots = ([1, 21, 3, 1, $row], [@empty], [1, 0, 0, 1, scalar reverse $row], [@empty], [@empty]);
    my @inners = ([12, 1, 0x50, 0x01, "\x01\xFE"], [0, 0, 0x41, 0x05, ''], [31, 1, 0x43, 0x02, pack 'C*', (packet_user(77, @slots[1, 1, 1, 1, 1]))[1 .. 13]]);
    my @access = ([1, 0, 0, "\x94\x2C\0\0"], [1, 1, 63, "\x14\x20\x94\xD0"], [0, 1, 5, "\x94\x2E\x94\x70"]);
    my @teletext = ([3, 1, 21, $row], [3, 1, 0, scalar reverse $row]);
    my $field = "\x10" . join '', map { pack('C C C C', $_->[0], 44, 0xC0 | $_->[1] << 5 | $_->[2], 0xE4) . reversed($_->[3]) } @teletext;
    my $stuffed = $field . "\xFF\x2C" . "\xFF\x00" x 22;
    my @stuffed = (@teletext, [255, undef, undef, "\xFF\x00" x 22]);
    my $reel = "\0\x80\x94\x2C\0\0\xFF\x14\x20\x94\xD0" . "\0\x45\x94\x2E\x94\x70";
    my $run = '1 0 11 ' . hex_bytes(CASE_A) . "\n0 0 11\nclose\n";
    my @packet = (4660, @slots);
    my @payload = (0, @access[0, 1]);
    my $sent = { units => [[1, 0, 0, "\x94\x2C\0\0"], [0, 0, 0, "\0" x 4], [0, 0, 0, "\0" x 4]] };
    return (
        { verb => 'area', words => [], from => 'bytes', in => CASE_A, out => area_text($unit), json => area_json($unit) },
        { verb => 'ga94', words => [], from => 'bytes', in => CASE_Q, out => ga94_text($ga94), json => ga94_json($ga94) },
        { verb => 'packet', words => [], from => 'words', in => packet_words(@packet), out => packet_text(@packet), json => packet_json(@packet) },
        { verb => 'multi', words => [], from => 'words', in => multi_words(7, @inners), out => multi_text(7, @inners), json => multi_json(7, @inners) },
        { verb => 'payload', words => [], from => 'bytes', in => substr($reel, 0, 11), out => payload_text(@payload), json => payload_json(@payload) },
        { verb => 'pes', words => [], from => 'bytes', in => $stuffed, out => pes_text(16, @stuffed), json => pes_json(16, @stuffed) },
        { verb => 'reel-list', words => ['--size', 2], from => 'bytes', in => $reel, out => reel_text(0, 2, @access), json => reel_json(0, 2, @access) },
        { verb => 'replace', words => ['--unit', WORDS_A], from => 'bytes', in => CASE_D . CASE_Q, out => CASE_A . CASE_Q, bytes => 1 },
        { verb => 'ga94-replace', words => ['--unit', WORDS_Q], from => 'bytes', in => CASE_A, out => CASE_A . CASE_Q, bytes => 1 },
        { verb => 'to-pes', words => [], from => 'words', in => packet_words(@packet), out => $field, bytes => 1 },
        { verb => 'film', words => [], from => 'text', in => $run, out => film_text(undef, $sent), json => film_json(undef, $sent) },
        { verb => 'reel', words => ['--size', 2], from => 'text', in => payload_text(0, @access), out => $reel, bytes => 1 },
    );
}

1;
