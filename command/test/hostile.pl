#!/usr/bin/perl
# command/test/hostile.pl COMMAND [WORD..] [SECTION..]: input, output, words and texts that are wrong, or at a border. Of each run the status, standard
# output and standard error are judged. The words are those of Run.pm; without a section all are run.
use strict;
use warnings;
use FindBin;
use lib $FindBin::Bin;
use Hostile;
use HostileFiles;
use HostileInputs;
use HostilePipes;
use HostileTexts;
use HostileWords;
use Run;

begin('hostile');
Hostile::prepare();

my @sections = (
    (map { [$_, 'HostileFiles'] } qw(plain unread closed full written links limited signals)),
    (map { [$_, 'HostilePipes'] } qw(pipes late)),
    (map { [$_, 'HostileInputs'] } qw(noise zeros empty lengths huge mutants)),
    (map { [$_, 'HostileTexts'] } qw(hex unit_words film reel reel_list)),
    (map { [$_, 'HostileWords'] } qw(wrong_words wrong_values names)),
);
my %module = map { @$_ } @sections;
for my $section (words_left() ? words_left() : map { $_->[0] } @sections) {
    my $module = $module{$section} // die "there is no section $section\n";
    $module->can("try_$section")->();
}
finish();
