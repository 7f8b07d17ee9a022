# What the command must print, made from values alone. A value is what Vectors.pm takes out of a line: a list of numbers, and bytes at its end.
package Listings;
use strict;
use warnings;
use Exporter 'import';

our @EXPORT = qw(area_text area_json area_value area_words ga94_text ga94_json ga94_value ga94_words packet_text packet_json payload_text payload_json
    reel_text reel_json unit_lines unit_objects UNIT_HEAD multi_text multi_json pes_text pes_json pes_taken film_text film_json
    scte20_unit is_legal reversed hex_bytes);

use constant UNIT_HEAD => "valid_1 valid_2 padding field1 field2\n";

# Bytes as hex digits with a space between each two, and without.
sub spaced    { return join ' ', map { sprintf '%02X', $_ } unpack 'C*', $_[0] }
sub hex_bytes { return uc unpack 'H*', $_[0] }

# One line: what has no digits, as the bytes of an empty slot, leaves no space behind.
sub line { return join(' ', grep { $_ ne '' } @_) . "\n" }

# An object of JSON: keys and values by turns. A value is a number; what ends in $ is a string of digits.
sub object {
    my @parts;
    while (my ($key, $value) = splice @_, 0, 2) {
        push @parts, $key =~ s/\$\z// ? qq("$key":"$value") : qq("$key":$value);
    }
    return '{' . join(',', @parts) . "}\n";
}

# ---- The picture area. A unit: reserved, flag, z, records; or nothing where none stands ----

sub area_text {
    my ($unit) = @_;
    return "none\n" unless $unit;
    return "priority field line data\n" . join '', map { line(@$_[0 .. 2], spaced($_->[3])) } @{ $unit->{records} };
}

sub area_json {
    my ($unit) = @_;
    return object(present => 'false') unless $unit;
    my @records = @{ $unit->{records} };
    return join '', object(present => 'true', reserved => $unit->{reserved}, vbi_data_flag => $unit->{flag}, n => scalar @records, z => $unit->{z}),
        map { my ($p, $f, $l, $data) = @$_; my @d = unpack 'C*', $data;
        object(cc_priority => $p, field_number => $f, line_offset => $l, cc_data_1 => $d[0], cc_data_2 => $d[1]) } @records;
}

# The words of a unit as --value prints them, and as one argument.
sub area_value {
    my ($unit) = @_;
    return "none\n" unless $unit;
    return join '', line(@$unit{qw(reserved flag z)}), map { line(@$_[0 .. 2], spaced($_->[3])) } @{ $unit->{records} };
}

sub area_words { return join ' ', split ' ', area_value(@_) }

# ---- GA94. A unit: flags (three), em, z, records ----

sub ga94_text {
    my ($unit) = @_;
    return "none\n" unless $unit;
    my ($process_em, $process_cc) = @{ $unit->{flags} };
    return join '', sprintf("process_em_data_flag %s process_cc_data_flag %s em_data %02X\n", $process_em, $process_cc, $unit->{em}),
        "valid type data\n", map { line(@$_[0, 1], spaced($_->[2])) } @{ $unit->{records} };
}

sub ga94_json {
    my ($unit) = @_;
    return object(present => 'false') unless $unit;
    my @flags = @{ $unit->{flags} };
    my @records = @{ $unit->{records} };
    return join '', object(present => 'true', process_em_data_flag => $flags[0], process_cc_data_flag => $flags[1], additional_data_flag => $flags[2],
        em_data => $unit->{em}, n => scalar @records, z => $unit->{z}),
        map { my ($valid, $type, $data) = @$_; my @d = unpack 'C*', $data;
        object(cc_valid => $valid, cc_type => $type, cc_data_1 => $d[0], cc_data_2 => $d[1]) } @records;
}

sub ga94_value {
    my ($unit) = @_;
    return "none\n" unless $unit;
    return join '', line(@{ $unit->{flags} }, sprintf('%02X', $unit->{em}), $unit->{z}),
        map { line(@$_[0, 1], spaced($_->[2])) } @{ $unit->{records} };
}

sub ga94_words { return join ' ', split ' ', ga94_value(@_) }

# ---- The packet: counter, five slots ----

sub packet_text {
    my ($counter, @slots) = @_;
    my $index = 0;
    return join '', "counter $counter\n", "slot full line reserved field data\n",
        map { my ($full, $line, $reserved, $field, $row) = @$_; line($index++, $full, $line, $reserved, $field, $full ? spaced($row) : '') } @slots;
}

sub packet_json {
    my ($counter, @slots) = @_;
    my $index = 0;
    return join '', object(counter => $counter), map { my ($full, $line, $reserved, $field, $row) = @$_;
        object(slot => $index++, full => $full, line => $line, reserved => $reserved, field => $field, 'data$' => $full ? hex_bytes($row) : '') } @slots;
}

# ---- The payload: flags, access units ----

sub unit_lines {
    return join '', map { line(@$_[0 .. 2], spaced($_->[3])) } @_;
}

sub unit_objects {
    return join '', map { my ($valid_1, $valid_2, $padding, $data) = @$_; my @d = unpack 'C*', $data;
        object(cc_valid_1 => $valid_1, cc_valid_2 => $valid_2, padding => $padding, field1_data1 => $d[0], field1_data2 => $d[1],
            field2_data1 => $d[2], field2_data2 => $d[3]) } @_;
}

sub payload_text {
    my ($flags, @units) = @_;
    return sprintf("flags %02X\n", $flags) . UNIT_HEAD . unit_lines(@units);
}

sub payload_json {
    my ($flags, @units) = @_;
    return object(flags => $flags, m => scalar @units) . unit_objects(@units);
}

# A run of units as payloads of some size each, one behind the other.
sub pieces {
    my ($size, @units) = @_;
    my @pieces;
    push @pieces, [splice @units, 0, $size] while @units;
    return @pieces;
}

sub reel_text {
    my ($flags, $size, @units) = @_;
    return join '', map { payload_text($flags, @$_) } pieces($size, @units);
}

sub reel_json {
    my ($flags, $size, @units) = @_;
    my $index = 0;
    return join '', map { object(payload => $index++, flags => $flags, m => scalar @$_) . unit_objects(@$_) } pieces($size, @units);
}

# ---- The multipacket: priority, inner packets ----

sub multi_text {
    my ($priority, @inners) = @_;
    my $index = 0;
    return join '', "priority $priority\n", "inner line field did sdid data\n",
        map { my ($line, $field, $did, $sdid, $data) = @$_; line($index++, $line, $field, sprintf('%02X %02X', $did, $sdid), spaced($data)) } @inners;
}

sub multi_json {
    my ($priority, @inners) = @_;
    my $index = 0;
    return join '', object(priority => $priority, n => scalar @inners), map { my ($line, $field, $did, $sdid, $data) = @$_;
        object(inner => $index++, line => $line, field => $field, did => $did, sdid => $sdid, 'data$' => hex_bytes($data)) } @inners;
}

# ---- The data field: identifier, units ----

sub pes_text {
    my ($identifier, @units) = @_;
    my $index = 0;
    return join '', sprintf("data_identifier %02X\n", $identifier), "unit id parity line data\n",
        map { my ($id, $parity, $line, $data) = @$_; line($index++, sprintf('%02X', $id), $parity // '-', $line // '-', spaced($data)) } @units;
}

sub pes_json {
    my ($identifier, @units) = @_;
    my $index = 0;
    return join '', object(data_identifier => $identifier, n => scalar @units), map { my ($id, $parity, $line, $data) = @$_;
        my @teletext = defined $parity ? (field_parity => $parity, line_offset => $line) : ();
        object(unit => $index++, data_unit_id => $id, @teletext, 'data$' => hex_bytes($data)) } @units;
}

# A byte with its bits in reverse, and all bytes of a text so.
sub reversed { return pack 'b*', unpack 'B*', $_[0] }

# The identifier and the units that the bytes of a legal data field hold.
sub pes_taken {
    my ($bytes) = @_;
    my $identifier = ord $bytes;
    my @units = map { substr $bytes, 1 + 46 * $_, 46 } 0 .. int(length($bytes) / 46) - 1;
    return $identifier, map {
        my ($id, undef, $data) = unpack 'C C a44', $_;
        my ($place, undef, $row) = unpack 'C C a42', $data;
        $id == 255 ? [$id, undef, undef, $data] : [$id, $place >> 5 & 1, $place & 31, reversed($row)]
    } @units;
}

# ---- Film: what each line of a run answers. An answer is { units => [..] }, or { refused, place, line } ----

sub film_text {
    my ($waiting, @answers) = @_;
    return UNIT_HEAD . join('', map { $_->{units} ? unit_lines(@{ $_->{units} }) : "refused $_->{refused} at $_->{place}\n" } @answers)
        . ($waiting ? line('waiting', $waiting->[0], spaced($waiting->[1])) : '');
}

sub film_json {
    my ($waiting, @answers) = @_;
    my @d = $waiting ? unpack 'C*', $waiting->[1] : ();
    return join('', map { $_->{units} ? unit_objects(@{ $_->{units} }) : object(refused => $_->{refused}, at => $_->{place}, line => $_->{line}) } @answers)
        . ($waiting ? object(waiting => 1, cc_valid => $waiting->[0], cc_data_1 => $d[0], cc_data_2 => $d[1]) : '');
}

# The layout of a caption unit, from the tables of RULES ("An SCTE 20 unit's body").
sub scte20_unit {
    my ($unit) = @_;
    my @records = @{ $unit->{records} };
    my $bits = sprintf '%08b%07b%01b', 3, $unit->{reserved}, $unit->{flag};
    if ($unit->{flag}) {
        $bits .= sprintf '%05b', scalar @records;
        $bits .= sprintf('%02b%02b%05b', @$_[0 .. 2]) . unpack('b16', $_->[3]) . '1' for @records;
        $bits .= '0000';
        $bits .= '0' while length($bits) % 8;
    }
    return "\0\0\1\xB2" . pack('B*', $bits) . "\0" x $unit->{z};
}

# Whether a value is legal (RULES, "The value"), so that it has such a layout, and an area of no other unit holds it.
sub is_legal {
    my ($unit) = @_;
    my @records = @{ $unit->{records} };
    return 0 if $unit->{reserved} > 127 || $unit->{flag} > 1 || @records > 31 || @records && !$unit->{flag};
    return 0 if grep { $unit->{reserved} * 2 + $unit->{flag} == $_ } 9, 10;
    my ($before_field, $before_line, %zeros) = (0, 0);
    for my $record (@records) {
        my ($priority, $field, $line) = @$record;
        return 0 if $priority > 3 || $field < 1 || $field > 3 || $line > 31;
        return 0 if $field < $before_field || $field == $before_field && $line <= $before_line;
        return 0 if $priority == 0 && ++$zeros{$field} > 4;
        ($before_field, $before_line) = ($field, $line);
    }
    return 0 if $unit->{z} > 16384;
    return length(scte20_unit($unit)) <= 16384;
}

1;
