#!/usr/bin/perl
# command/test/readme.pl COMMAND [WORD..]: what the README shows of the command, under "Use". Each line behind `$ ` is run by the shell in the root of the
# repository, in the order of the page, and has to print, to either stream, the lines below it.
use strict;
use warnings;
use FindBin;
use lib $FindBin::Bin;
use Run;

my $command = begin('readme');
chdir "$FindBin::Bin/../.." or die "the root of the repository: $!\n";
my $bin = work() . '/bin';
mkdir $bin or die "$bin: $!\n";
symlink $command, "$bin/captions" or die "$bin/captions: $!\n";

my ($section) = content('README.md') =~ /^## Use\n(.*?)^## /ms or die "README.md has no part `Use`\n";
my $runs = 0;
while ($section =~ /^    \$ ([^\n]+)\n((?:    (?!\$ )[^\n]*\n)*)/mg) {
    my ($line, $shown) = ($1, $2);
    $shown =~ s/^    //mg;
    # The example writes to /tmp; here to the folder of the test.
    $line =~ s{/tmp/}{work() . '/'}ge;
    my $answer = ask(['-c', "{ $line\n} 2>&1"], command => '/bin/sh', env => { PATH => "$bin:$ENV{PATH}" });
    case("README: $line", $answer, same('what it prints', $answer->{out}, $shown));
    $runs++;
}
case('README: a listing, a replacement, a film run and a refusal', undef, $runs >= 5 ? undef : "it shows $runs calls");
finish();
