# Files and streams: those that cannot be read or written, are closed or full, and what -o leaves behind.
package HostileFiles;
use strict;
use warnings;
use Errno ();
use Fcntl;
use Hostile;
use Listings;
use POSIX ();
use Run;
use Samples;

# The samples themselves, by each way to name the input, each spelling of options, and each format.
sub try_plain {
    for my $sample (@samples) {
        my ($verb, $in, $out) = @$sample{qw(verb in out)};
        my $file = save("$work/in", $in);
        accepted("$verb, standard input", ask(words($sample), in => $in), $out);
        accepted("$verb, -", ask(words($sample, '-'), in => $in), $out);
        accepted("$verb, a file", ask(words($sample, $file)), $out);
        accepted("$verb, a file before the options", ask([$verb, $file, @{ $sample->{words} }]), $out);
        accepted("$verb, a file behind --", ask(words($sample, '--', $file)), $out);
        accepted("$verb, a file that begins with a minus", ask(words($sample, '--', '-in'), folder => fresh_with('-in', $in)), $out);
        accepted("$verb, a name with spaces", ask(words($sample, ' in put '), folder => fresh_with(' in put ', $in)), $out);
        accepted("$verb, json", ask(words($sample, '--json'), in => $in), $sample->{json}) if $sample->{json};
        accepted("$verb, -j", ask(words($sample, '-j', $file)), $sample->{json}) if $sample->{json};
        for my $spelling ($sample->{bytes} ? ([qw(-t hex)], [qw(--to hex)], ['--to=hex']) : ()) {
            accepted("$verb, @$spelling", ask(words($sample, @$spelling), in => $in), hex_bytes($out) . "\n");
        }
        for my $format (formats($sample)) {
            my $text = formatted($sample, $format);
            for my $spelling (['-f', $format], ['--from', $format], ["--from=$format"]) {
                accepted("$verb, @$spelling", ask(words($sample, @$spelling), in => $text), $out);
            }
        }
    }
}

sub try_unread {
    my $folder = fresh();
    for my $sample (@samples) {
        my $verb = $sample->{verb};
        broken("$verb, no such file", ask(words($sample, "$folder/none")), "$folder/none", reason(Errno::ENOENT));
        broken("$verb, no such folder", ask(words($sample, "$folder/none/none")), "$folder/none/none", reason(Errno::ENOENT));
        broken("$verb, a file as a folder", ask(words($sample, "$work/stdin/none")), "$work/stdin/none", reason(Errno::ENOTDIR));
        broken("$verb, a directory", ask(words($sample, $folder)), $folder, reason(Errno::EISDIR));
        opendir my $directory, '/' or die "/: $!\n";
        sysopen my $root, '/', O_RDONLY or die "/: $!\n";
        broken("$verb, a directory on standard input", ask(words($sample), stdin => $root), 'standard input', reason(Errno::EISDIR));
        broken("$verb, an empty name", ask(words($sample, '')), '', reason(Errno::ENOENT));
        # Nothing is created or changed.
        my $kept = save("$folder/kept", 'kept');
        broken("$verb, no such file, with -o", ask(words($sample, "$folder/none", '-o', $kept)), "$folder/none", reason(Errno::ENOENT),
            same('the file of -o', content($kept), 'kept'), same('the folder', left_beside($folder), 'kept'));
        broken("$verb, no such file, with -o of a new one", ask(words($sample, "$folder/none", '-o', "$folder/new")), "$folder/none", reason(Errno::ENOENT),
            same('the folder', left_beside($folder), 'kept'));
        unlink $kept;
        if ($> == 0) {
            skip('a file that may not be read (root may read all)');
            next;
        }
        my $secret = save("$work/secret", $sample->{in});
        chmod 0, $secret;
        broken("$verb, a file that may not be read", ask(words($sample, $secret)), $secret, reason(Errno::EACCES));
        unlink $secret;
    }
    for my $verb (qw(replace ga94-replace)) {
        my $in = $sample{$verb}{in};
        broken("$verb, no such --unit-file", ask([$verb, '--unit-file', "$folder/none"], in => $in), "$folder/none", reason(Errno::ENOENT));
        broken("$verb, a directory as --unit-file", ask([$verb, '--unit-file', $folder], in => $in), $folder, reason(Errno::EISDIR));
    }
}

sub try_closed {
    my $folder = fresh();
    my $bad = reason(Errno::EBADF);
    for my $sample (@samples) {
        my ($verb, $in, $out) = @$sample{qw(verb in out)};
        my $file = save("$work/in", $in);
        my $to = "$folder/out";
        # With -o the answer is in the file: taken into the answer, it is judged as if it had been printed.
        my $by_file = sub {
            my ($words, %how) = @_;
            my $answer = ask([@$words, '-o', $to], %how);
            $answer->{out} .= content($to) // '';
            unlink $to;
            return $answer, same('the folder of -o', left_beside($folder), '');
        };
        broken("$verb, no standard input", ask(words($sample), closed => '0'), 'standard input', $bad);
        broken("$verb, no standard input, -", ask(words($sample, '-'), closed => '0'), 'standard input', $bad);
        accepted("$verb, no standard input, and a file", ask(words($sample, $file), closed => '0'), $out);
        broken("$verb, no standard output", ask(words($sample), in => $in, closed => '1'), 'standard output', $bad);
        broken("$verb, no standard output, and a file", ask(words($sample, $file), closed => '1'), 'standard output', $bad);
        accepted("$verb, no standard error", ask(words($sample), in => $in, closed => '2'), $out);
        accepted("$verb, no standard error, and a file", ask(words($sample, $file), closed => '2'), $out);
        accepted("$verb, no standard input nor error, and a file", ask(words($sample, $file), closed => '02'), $out);
        for my $closed (qw(0 1 2 01 02 12 012)) {
            my ($answer, $left) = $by_file->(words($sample, $file), closed => $closed);
            accepted("$verb, a file and -o, closed: $closed", $answer, $out, $left);
        }
        for my $closed (qw(1 2 12)) {
            my ($answer, $left) = $by_file->(words($sample), in => $in, closed => $closed);
            accepted("$verb, -o, closed: $closed", $answer, $out, $left);
        }
        # Nothing can be said any more, and the status still tells. What is said goes into no file that was opened meanwhile.
        my $answer = ask(words($sample, $file), closed => '12');
        case("$verb, no standard output nor error", $answer, at_status($answer, 3), same('the streams', $answer->{out} . $answer->{err}, ''));
        $answer = ask(words($sample), closed => '02');
        case("$verb, no standard input nor error", $answer, at_status($answer, 3), same('the streams', $answer->{out} . $answer->{err}, ''));
        $answer = ask(words($sample, "$work/none"), closed => '2');
        case("$verb, no such file and no standard error", $answer, at_status($answer, 3), same('standard output', $answer->{out}, ''));
        $answer = ask(words($sample, '--bogus'), closed => '2');
        case("$verb, wrong words and no standard error", $answer, at_status($answer, 3), same('standard output', $answer->{out}, ''));
        my $kept = save("$folder/kept", 'kept');
        for my $closed (qw(2 02 12 012)) {
            $answer = ask(words($sample, "$work/none", '-o', $kept), closed => $closed);
            case("$verb, no such file and -o, closed: $closed", $answer, at_status($answer, 3), same('the file of -o', content($kept), 'kept'),
                same('the folder', left_beside($folder), 'kept'));
        }
        unlink $kept;
        # A refusal that cannot be said is a write that failed: 3. -o is left alone.
        my $bad_in = refused_input($sample);
        save("$work/bad", $bad_in);
        $kept = save("$folder/kept", 'kept');
        for my $closed (qw(2 02 12 012)) {
            $answer = ask(words($sample, "$work/bad", '-o', $kept), closed => $closed);
            case("$verb, refused, with -o, closed: $closed", $answer, at_status($answer, 3), same('the file of -o', content($kept), 'kept'),
                same('the folder', left_beside($folder), 'kept'), same('the input', content("$work/bad"), $bad_in));
        }
        $answer = ask(words($sample, "$work/bad"), closed => '2');
        case("$verb, refused, no standard error", $answer, at_status($answer, 3), same('standard output', $answer->{out}, ''));
        refused("$verb, refused, no standard output", ask(words($sample, "$work/bad"), closed => '1'), refusal_of($sample, "$work/bad"));
        unlink $kept;
    }
    for my $words (['--help'], ['--version'], map { [$_->{verb}, '--help'] } @samples) {
        broken("@$words, no standard output", ask($words, closed => '1'), 'standard output', $bad);
        my $whole = ask($words);
        accepted("@$words, no standard input nor error", ask($words, closed => '02'), $whole->{out});
    }
}

sub try_full {
    my $folder = fresh();
    my $full = reason(Errno::ENOSPC);
    for my $sample (@samples) {
        my ($verb, $in, $out) = @$sample{qw(verb in out)};
        sysopen my $device, '/dev/full', O_WRONLY or die "/dev/full: $!\n";
        broken("$verb, a full device", ask(words($sample), in => $in, stdout => $device), 'standard output', $full);
        broken("$verb, -o of a full device", ask(words($sample, '-o', '/dev/full'), in => $in), '/dev/full', $full);
        my $empty = fresh();
        accepted("$verb, -o of -, standard output", ask(words($sample, '-o', '-'), in => $in, folder => $empty), $sample->{out},
            same('the folder', left_beside($empty), ''));
        accepted("$verb, -o of /dev/null", ask(words($sample, '-o', '/dev/null'), in => $in), '',
            -c '/dev/null' ? undef : '/dev/null is no device any more');
        broken("$verb, -o of a directory", ask(words($sample, '-o', $folder), in => $in), $folder, reason(Errno::EISDIR),
            same('the folder', left_beside($folder), ''));
        broken("$verb, -o of a directory with a slash", ask(words($sample, '-o', "$folder/"), in => $in), "$folder/", reason(Errno::EISDIR),
            same('the folder', left_beside($folder), ''));
        broken("$verb, -o into no folder", ask(words($sample, '-o', "$folder/none/out"), in => $in), "$folder/none/out", reason(Errno::ENOENT));
        broken("$verb, -o behind a file", ask(words($sample, '-o', "$work/stdin/out"), in => $in), "$work/stdin/out", reason(Errno::ENOTDIR));
        broken("$verb, -o of an empty name", ask(words($sample, '-o', ''), in => $in, folder => $folder), '', reason(Errno::ENOENT),
            same('the folder', left_beside($folder), ''));
        # A refusal is no output: a device that is full does not change it. Where it cannot be said, a write failed.
        refused("$verb, refused, a full device", ask(words($sample), in => refused_input($sample), stdout => $device), refusal_of($sample, 'standard input'));
        my $answer = ask(words($sample), in => refused_input($sample), stderr => $device);
        case("$verb, refused, standard error full", $answer, at_status($answer, 3), same('standard output', $answer->{out}, ''));
        if ($> == 0) {
            skip('-o into a folder that may not be written to (root may)');
        }
        else {
            chmod 0555, $folder;
            my $to = "$folder/out";
            broken("$verb, -o into a folder that may not be written to", ask(words($sample, '-o', $to), in => $in), $to, reason(Errno::EACCES));
            chmod 0755, $folder;
        }
    }
    for my $words (['--help'], ['--version'], map { [$_->{verb}, '--help'] } @samples) {
        sysopen my $device, '/dev/full', O_WRONLY or die "/dev/full: $!\n";
        broken("@$words, a full device", ask($words, stdout => $device), 'standard output', $full);
    }
}

sub try_written {
    for my $sample (@samples) {
        my ($verb, $in, $out) = @$sample{qw(verb in out)};
        my $folder = fresh();
        my $file = "$folder/out";
        my $to = sub {
            my ($label, $words, $mode, %how) = @_;
            my $answer = ask($words, %how);
            my $found = content($file) // 'no file';
            my $bits = sprintf '%04o', (stat $file)[2] & 07777;
            accepted("$verb, $label", $answer, '', same('the file', $found, $out), same('its permissions', $bits, $mode),
                same('the folder', left_beside($folder), 'out'));
        };
        my $old = umask 027;
        $to->('-o of a new file', words($sample, '-o', $file), '0640', in => $in);
        chmod 0604, $file;
        save($file, 'longer than what comes now ' x 500);
        $to->('-o of a file that is there', words($sample, "--output=$file"), '0604', in => $in);
        chmod 0400, $file;
        $to->('-o of a file that may only be read', words($sample, '--output', $file), '0400', in => $in);
        unlink $file;
        umask 022;
        $to->('-o of a name without a folder', words($sample, '-o', 'out'), '0644', in => $in, folder => $folder);
        save($file, $in);
        chmod 0666, $file;
        $to->('-o onto the input', words($sample, $file, '-o', $file), '0666');
        umask $old;
        my $long = 'o' x 255;
        my $answer = ask(words($sample, '-o', "$folder/$long"), in => $in);
        accepted("$verb, -o of a name of 255 bytes", $answer, '', same('the file', content("$folder/$long") // 'no file', $out),
            same('the folder', left_beside($folder), "$long out"));
        unlink "$folder/$long";
        # Refused: what is there stays as it was, by its inode too.
        save($file, 'kept');
        my $before = join ' ', (stat $file)[0 .. 5, 7, 9];
        my $bad = refused_input($sample);
        my @refusal = refusal_of($sample, 'standard input');
        refused("$verb, refused, -o of a file that is there", ask(words($sample, '-o', $file), in => $bad), @refusal, same('the file', content($file), 'kept'),
            same('its inode, times and permissions', join(' ', (stat $file)[0 .. 5, 7, 9]), $before), same('the folder', left_beside($folder), 'out'));
        unlink $file;
        refused("$verb, refused, -o of a new file", ask(words($sample, '-o', $file), in => $bad), @refusal, same('the folder', left_beside($folder), ''));
        save($file, $bad);
        refused("$verb, refused, -o onto the input", ask(words($sample, $file, '-o', $file)), refusal_of($sample, $file),
            same('the file', content($file), $bad), same('the folder', left_beside($folder), 'out'));
        # Wrong use: the same.
        save($file, 'kept');
        misused("$verb, wrong words, -o of a file that is there", ask(words($sample, '--bogus', '-o', $file), in => $in), undef,
            same('the file', content($file), 'kept'));
        unlink $file;
        misused("$verb, wrong words, -o of a new file", ask(words($sample, '-o', $file, 'one', 'two'), in => $in), undef,
            same('the folder', left_beside($folder), ''));
    }
}

# -o onto links and pipes.
sub try_links {
    for my $sample (@samples) {
        my ($verb, $in, $out) = @$sample{qw(verb in out)};
        my $folder = fresh();
        mkdir "$folder/far" or die "$folder/far: $!\n";
        my ($link, $target) = ("$folder/link", "$folder/far/target");
        symlink 'far/target', $link or die "$link: $!\n";
        save($target, 'old');
        chmod 0640, $target;
        my $stays = sub { (readlink($link) // '') eq 'far/target' ? undef : 'the link is no link any more, or another' };
        my $to_link = words($sample, '-o', $link);
        accepted("$verb, -o of a link", ask($to_link, in => $in), '', $stays->(), same('its target', content($target) // 'no file', $out),
            same('the target\'s permissions', sprintf('%04o', (stat $target)[2] & 07777), '0640'),
            same('the folders', left_beside($folder) . ' and ' . left_beside("$folder/far"), 'far link and target'));
        save($target, $in);
        accepted("$verb, -o of a link to the input", ask(words($sample, $target, '-o', $link)), '', $stays->(),
            same('its target', content($target) // 'no file', $out));
        save($target, 'old');
        refused("$verb, refused, -o of a link", ask($to_link, in => refused_input($sample)), refusal_of($sample, 'standard input'), $stays->(),
            same('its target', content($target), 'old'), same('the folder', left_beside("$folder/far"), 'target'));
        unlink $target;
        accepted("$verb, -o of a link to nothing", ask($to_link, in => $in), '', $stays->(), same('its target', content($target) // 'no file', $out),
            same('the folders', left_beside($folder) . ' and ' . left_beside("$folder/far"), 'far link and target'));
        unlink $link, $target;
        symlink 'link', $link or die "$link: $!\n";
        broken("$verb, -o of a link to itself", ask($to_link, in => $in), $link, reason(Errno::ELOOP));
        unlink $link;
        symlink '/dev/null', $link or die "$link: $!\n";
        accepted("$verb, -o of a link to /dev/null", ask($to_link, in => $in), '', -c '/dev/null' && -l $link ? undef : 'a device or a link is gone');
        unlink $link;
        symlink '/dev/full', $link or die "$link: $!\n";
        broken("$verb, -o of a link to /dev/full", ask($to_link, in => $in), $link, reason(Errno::ENOSPC));
        unlink $link;
        # Two names of one file: the other keeps what it had.
        save($target, 'old');
        link $target, $link or die "$link: $!\n";
        accepted("$verb, -o of one of two names", ask($to_link, in => $in), '', same('the file', content($link), $out),
            same('the other', content($target), 'old'));
        unlink $link, $target;
        # A pipe with a name is written to as it is. It is held open here, so that the command need not wait for a reader.
        POSIX::mkfifo($link, 0600) or die "$link: $!\n";
        sysopen my $pipe, $link, O_RDWR | O_NONBLOCK or die "$link: $!\n";
        my $answer = ask($to_link, in => $in);
        sysread $pipe, my $got, 1 << 16;
        accepted("$verb, -o of a pipe with a name", $answer, '', same('what came', $got // '', $out), -p $link ? undef : 'the pipe is none any more');
        close $pipe;
        # And read from.
        accepted("$verb, a pipe with a name as input", ask(words($sample, $link), beside => sub {
            sysopen my $end, $link, O_WRONLY or die "$link: $!\n";
            syswrite $end, $in;
        }), $out);
        unlink $link;
        # A device as input.
        my $nothing = ask(words($sample), in => '');
        my $device = ask(words($sample, '/dev/null'));
        case("$verb, /dev/null as input", $device, at_status($device, $nothing->{status}), same('standard output', $device->{out}, $nothing->{out}),
            same('standard error', $device->{err}, $nothing->{err} =~ s/standard input/\/dev\/null/r));
    }
}

# A limit on the length of files. Standard error is a pipe, since a file would be limited too.
# A signal that ends the command while it writes: the file of -o is the old one, and none is left beside it. The signal is sent as soon as a name stands
# in the folder that was not there, and what is written is long enough that this is before the end. A signal that the command was told to ignore does
# nothing.
sub try_signals {
    my $lines = "1 0 0 94 2C 00 00\n" x 2_000_000;
    for my $signal (qw(HUP INT TERM)) {
        my $folder = fresh();
        my $kept   = save("$folder/kept", 'kept');
        my $seen   = 0;
        my $answer = ask([qw(reel -t hex -o), $kept], in => $lines, beside => sub {
            my ($child) = @_;
            while (!$seen && kill 0 => $child) {
                $seen = left_beside($folder) ne 'kept';
                last if !$seen && ended_already($child);
            }
            kill $signal => $child if $seen;
        });
        case("reel, SIG$signal while it writes", $answer,
            $seen ? undef : 'no file was seen beside the one of -o',
            $answer->{status} eq 'signal ' . signal_number($signal) ? undef : "it ended with $answer->{status}",
            same('standard output', $answer->{out}, ''), same('the file of -o', content($kept), 'kept'),
            same('the folder', left_beside($folder), 'kept'));
    }
    my $folder = fresh();
    local $SIG{TERM} = 'IGNORE';
    my $sent   = 0;
    my $answer = ask([qw(reel -t hex -o), "$folder/new"], in => $lines, beside => sub {
        my ($child) = @_;
        until ($sent || ended_already($child)) {
            next if left_beside($folder) eq '';
            $sent = kill TERM => $child;
        }
    });
    accepted('reel, SIGTERM while it writes, ignored', $answer, '', $sent ? undef : 'no file was seen', same('the folder', left_beside($folder), 'new'));
}

# Whether a child has ended and waits to be asked for.
sub ended_already {
    my ($child) = @_;
    my $state = content("/proc/$child/stat") // return 1;
    return $state =~ /\) [ZX] /;
}

sub signal_number {
    my ($name) = @_;
    return { HUP => POSIX::SIGHUP(), INT => POSIX::SIGINT(), TERM => POSIX::SIGTERM() }->{$name};
}

sub try_limited {
    my $folder = fresh();
    my $large = reason(Errno::EFBIG);
    my $text = join '', map { sprintf "1 0 %d 94 2C 80 80\n", $_ % 64 } 1 .. 300;
    my $reel = ask(['reel'], in => $text)->{out};
    for my $case ((map { [0, $_] } @samples), [1, { verb => 'reel-list', words => [], in => $reel }], [1, { verb => 'reel', words => [], in => $text }]) {
        my ($blocks, $sample) = @$case;
        my $verb = $sample->{verb};
        my $input = save("$work/in", $sample->{in});
        my $via = ['sh', '-c', "ulimit -f $blocks && exec \"\$@\"", 'sh'];
        my $limited = sub {
            my (@words) = @_;
            pipe my $read, my $write or die "pipe: $!\n";
            my $answer = ask(words($sample, @words), via => $via, stderr => $write);
            close $write;
            local $/;
            $answer->{err} = <$read> // '';
            return $answer;
        };
        my $answer = $limited->($input);
        my $whole = ask(words($sample, $input))->{out};
        case("$verb, room for $blocks blocks in a file", $answer, at_status($answer, 3),
            same('standard output', $answer->{out}, substr $whole, 0, 512 * $blocks),
            same('standard error', $answer->{err}, "captions: standard output: $large\n"));
        broken("$verb, -o, room for $blocks blocks in a file", $limited->($input, '-o', "$folder/new"), "$folder/new", $large,
            same('the folder', left_beside($folder), ''));
        my $kept = save("$folder/kept", 'kept');
        broken("$verb, -o of a file that is there, room for $blocks blocks", $limited->($input, '-o', $kept), $kept, $large,
            same('the file', content($kept), 'kept'), same('the folder', left_beside($folder), 'kept'));
        unlink $kept;
        broken("$verb, -o onto the input, room for $blocks blocks", $limited->($input, '-o', $input), $input, $large,
            same('the file', content($input), $sample->{in}));
    }
}

1;
