#!/usr/bin/perl
# command/test/help.pl COMMAND [WORD..]: what --help and --version say, the example of each verb, and those of docs/layouts/table.txt.
#
# CAPTIONS_LIB names the archive whose digest --version must tell, and CAPTIONS_COMMIT has the commit that the command was built from; without them these
# are not compared.
use strict;
use warnings;
use Cwd qw(abs_path);
use Digest::SHA;
use FindBin;
use lib $FindBin::Bin;
use Run;
use Samples;

my $library = $ENV{CAPTIONS_LIB};
$library = abs_path($library) if defined $library && $library ne '';
my $command = begin('help');
chdir "$FindBin::Bin/../.." or die "the root of the repository: $!\n";

# The options of each verb, from the man page. All have --output and --help.
my @list = qw(--from --json);
my %options = (
    area => [@list, '--value'], ga94 => [@list, '--value'], packet => [@list], multi => [@list], payload => [@list], pes => [@list],
    'reel-list' => [@list, '--size'], replace => [qw(--unit --unit-file --from --to)], 'ga94-replace' => [qw(--unit --unit-file --from --to)],
    'to-pes' => [qw(--from --to)], film => [qw(--each --json)], reel => [qw(--size --flags --to)],
);
my @verbs = map { $_->{verb} } samples();
my $bin = work() . '/bin';
mkdir $bin or die "$bin: $!\n";
symlink $command, "$bin/captions" or die "$bin/captions: $!\n";

overview();
verb($_) for @verbs;
version();
man_page();
layouts();
finish();

# whole LABEL ANSWER FAULT..: status 0, something printed, nothing said.
sub whole {
    my ($label, $answer, @faults) = @_;
    return accepted($label, $answer, $answer->{out}, $answer->{out} =~ /\n\z/ ? undef : 'there are no lines', @faults);
}

sub overview {
    my $help = ask(['--help']);
    my %named = map { $_ => 1 } $help->{out} =~ /^ +([a-z0-9-]+)  /mg;
    whole('--help', $help, map({ delete $named{$_} ? undef : "the verb $_ is not named" } @verbs), map { "there is no verb $_" } sort keys %named);
    accepted('-h', ask(['-h']), $help->{out});
}

sub verb {
    my ($verb) = @_;
    my $help = ask([$verb, '--help']);
    my %named = map { $_ => 1 } $help->{out} =~ /^ +(?:-\w, )?(--[a-z-]+)/mg;
    my @faults = map { delete $named{$_} ? undef : "the option $_ is not named" } $options{$verb}->@*, '--output';
    delete $named{'--help'};
    whole("$verb --help", $help, @faults, map({ "there is no option $_" } sort keys %named),
        $help->{out} =~ /\Ausage: captions \Q$verb\E / ? undef : 'it does not begin with how to use the verb');
    accepted("$verb -h", ask([$verb, '-h']), $help->{out});
    # Help comes before all else: nothing is read, and nothing else is asked for.
    accepted("$verb --help, no input", ask([$verb, '--help'], closed => '0'), $help->{out});
    example($verb, $help);
}

# The example at the end of a help: the shell prints what stands below it.
sub example {
    my ($verb, $help) = @_;
    my ($line, $more, $listed) = $help->{out} =~ /^Example:\n    \$ ([^\n]+\n)((?:    > [^\n]*\n)*)((?:    [^\n]*\n)+)\z/m;
    return failed("$verb --help, its example", $help, 'there is no example at its end') unless defined $line;
    # Lines with > go on with the command, as a shell asks for more.
    $line .= $more =~ s/^    > //mgr;
    return failed("$verb --help, its example", $help, "it does not run the verb: $line") unless $line =~ /\bcaptions \Q$verb\E\s/;
    $listed =~ s/^    //mg;
    my $folder = work() . "/example-$verb";
    mkdir $folder or die "$folder: $!\n";
    my $answer = ask(['-c', $line], command => '/bin/sh', folder => $folder, env => { PATH => "$bin:$ENV{PATH}" });
    accepted("$verb --help, its example", $answer, $listed, same('its folder', left_beside($folder), ''));
}

sub version {
    my $answer = ask(['--version']);
    my @line = split /\n/, $answer->{out};
    my @faults;
    push @faults, 'there are ' . @line . ' lines, and have to be 4' if @line != 4;
    my $requests = () = glob 'docs/changes/[0-9][0-9].md';
    push @faults, same('the first line', $line[0] // '', "captions 0.$requests");
    push @faults, "the second line was '$line[1]'" if ($line[1] // '') !~ /\Acommit (?:[0-9a-f]{40}(?: and changes that are not committed)?|unknown)\z/;
    push @faults, "the third line was '$line[2]'" if ($line[2] // '') !~ /\Aarchive sha256 [0-9a-f]{64}\z/;
    push @faults, "the fourth line was '$line[3]'" if ($line[3] // '') !~ /\Akit \S.*\z/;
    if (defined $ENV{CAPTIONS_COMMIT}) {
        push @faults, same('the commit', ($line[1] // '') =~ s/ and changes that are not committed\z//r, "commit $ENV{CAPTIONS_COMMIT}");
    }
    else {
        skip('the commit (CAPTIONS_COMMIT does not tell it)');
    }
    my $kit = told('rt', 'version');
    push @faults, same('the kit', $line[3] // '', "kit $kit") if defined $kit;
    if (defined $library) {
        push @faults, same('the digest', $line[2] // '', 'archive sha256 ' . Digest::SHA->new(256)->addfile($library, 'b')->hexdigest);
    }
    else {
        skip('the digest of the archive (CAPTIONS_LIB does not name it)');
    }
    whole('--version', $answer, @faults);
}

# The line that a program prints, or nothing where it is not there or fails.
sub told {
    my (@words) = @_;
    open my $pipe, '-|', 'sh', '-c', '"$@" 2>/dev/null', 'sh', @words or return undef;
    my $line = <$pipe>;
    close $pipe or return undef;
    return undef unless defined $line;
    chomp $line;
    return $line;
}

# The man page has every verb and every option, and no other.
sub man_page {
    my $page = content('man/captions.1') // return skip('the man page (there is no man/captions.1)');
    $page =~ s/\\-/-/g;
    my %verb = map { $_ => 1 } @verbs;
    my ($part) = $page =~ /^\.SH VERBS\n(.*?)^\.SH OPTIONS\n/ms;
    my %found = map { $_ => 1 } ($part // '') =~ /^\.TP\n\.B ([a-z0-9-]+)\n/mg;
    case('man page, verbs', undef, map({ $found{$_} ? undef : "there is no $_" } @verbs), map { $verb{$_} ? undef : "there is no verb $_" } sort keys %found);
    my ($options) = $page =~ /^\.SH OPTIONS\n(.*?)^\.SH /ms;
    my %option = map { $_ => 1 } map({ @$_ } values %options), qw(--output --help --version);
    %found = map { $_ => 1 } map { /(--[a-z-]+)/ } ($options // '') =~ /^\.TP\n(\.B.*)\n/mg;
    case('man page, options', undef, map({ $found{$_} ? undef : "there is no $_" } sort keys %option),
        map { $option{$_} ? undef : "there is no option $_" } sort keys %found);
}

# ---- The examples of the layouts ----

# docs/layouts/table.txt has lines `example VERB OPTIONS HEX`, and behind each the lines that the command prints for it, which docs/LAYOUTS.md shows.
sub layouts {
    my $table = content('docs/layouts/table.txt') // return skip('the examples of layouts (there is no docs/layouts/table.txt)');
    my $page = content('docs/LAYOUTS.md');
    skip('the listings of docs/LAYOUTS.md (it is not there)') unless defined $page;
    my $shown = defined $page ? "\n" . $page =~ s/^[ \t]+|[ \t]+$//mgr : undef;
    my ($count, $example, @prints) = (0);
    for my $line (split(/\n/, $table), 'end of the table') {
        if ($line =~ /\Aprints (.*)\z/) { push @prints, $1; next }
        next if $line =~ /\Afrom / || !defined $example && $line !~ /\Aexample /;
        layout($example, $shown, @prints) if defined $example;
        ($example, @prints) = ();
        if ($line =~ /\Aexample (.*)\z/) { $example = $1; $count++ }
    }
    failed('layouts: an example', undef, 'there is none') unless $count;
}

sub layout {
    my ($example, $shown, @prints) = @_;
    my ($verb, @words) = split ' ', $example;
    my @options = grep { /\A-/ } @words;
    my $hex = join ' ', grep { !/\A-/ } @words;
    my $answer = ask([$verb, @options, '--from', 'hex'], in => "$hex\n");
    my $label = 'layouts: ' . substr $example, 0, 60;
    my $text = join '', map { "$_\n" } @prints;
    accepted($label, $answer, @prints ? $text : $answer->{out}, $answer->{out} ne '' ? undef : 'nothing is listed');
    return unless defined $shown;
    case("$label, on the page", $answer, index($shown, "\n$answer->{out}") >= 0 ? undef : 'docs/LAYOUTS.md does not show what the command prints');
}
