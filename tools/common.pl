# What the checks of the documents share: files, the folder of the source documents, and the clauses of the rule book.
# A script takes it in by `require`, and then stands in the root of the repository, whatever folder it was called from.
use strict;
use warnings;
use utf8;
use Cwd qw(getcwd);

# A relative folder in SOURCES counts from where the script was called.
$ENV{SOURCES} = getcwd() . "/$ENV{SOURCES}" if defined $ENV{SOURCES} && $ENV{SOURCES} !~ m{\A/};
chdir __FILE__ =~ s{[^/]*\z}{..}r or die "the root of the repository: $!\n";
binmode STDOUT, ':utf8';
binmode STDERR, ':utf8';
$| = 1;

# An ID of a clause, as in D-1, PA-12, OR-5.3.
our $ID = qr/[A-Z]+-[A-Z0-9]+(?:\.[0-9]+)?/;

# ---- Defects ----

my $defects = 0;

# complain PLACE WHAT: one line for one defect. A place is PATH:LINE.
sub complain {
    my ($place, $what) = @_;
    print "$place: $what\n";
    $defects++;
}

sub defects { return $defects }

# ---- Files ----

# The text of a file. What is no UTF-8 is read byte by byte, so that no file can stop a check.
sub text_of {
    my ($path) = @_;
    open my $file, '<:raw', $path or die "$path: $!\n";
    local $/;
    my $text = <$file> // '';
    utf8::decode($text);
    return $text;
}

# The lines of a file, without their ends.
sub lines_of {
    my ($path) = @_;
    my @lines = split /\r?\n/, text_of($path), -1;
    pop @lines if @lines && $lines[-1] eq '';
    return @lines;
}

# Every file and folder of the repository, by its path from the root. Build output is left out: no page may link to it.
sub all_paths {
    my %present = ('.' => 1);
    my @folders = ('');
    while (@folders) {
        my $folder = shift @folders;
        opendir my $entries, $folder eq '' ? '.' : $folder or next;
        for my $entry (grep { !/\A(?:\.|\.\.|\.git|target)\z/ } readdir $entries) {
            my $path = "$folder$entry";
            next if $path =~ m{\Acrates/[^/]+/out\z};
            $present{$path} = 1;
            push @folders, "$path/" if -d $path && !-l $path;
        }
    }
    return \%present;
}

# White space folded to one space, and none at the ends. Only these letters are white space, so a digest never depends
# on how new a Perl is.
sub folded {
    my ($text) = @_;
    $text =~ s/[ \t\r\n\f]+/ /g;
    $text =~ s/\A | \z//g;
    return $text;
}

# The cells of a table row, trimmed. `\|` is a bar inside a cell.
sub cells_of {
    my ($line) = @_;
    $line =~ s/\\\|/\0/g;
    $line =~ s/\A\s*\|//;
    $line =~ s/\|\s*\z//;
    return map { folded(s/\0/|/gr) } split /\|/, $line, -1;
}

# The rule under the head of a table.
sub is_table_rule {
    my ($line) = @_;
    return $line =~ /\A\s*\|[-:| \t]*-[-:| \t]*\z/;
}

# ---- The source documents ----

# The folder of the source documents, or undef where it is not there. They are no part of the repository.
sub documents_folder {
    my $folder = $ENV{SOURCES} // '../shared/docs';
    return -d $folder ? $folder : undef;
}

# ---- The rule book ----

# What looks like the head of a clause and is none: a slip that would turn a clause into mere explanation.
sub is_slip {
    my ($head) = @_;
    return 0 if $head !~ /\A\**$ID(?![A-Za-z0-9])(.*)\z/;
    my $rest = $1;
    return $rest =~ /ours|\{/ || $rest !~ /[^ .,:;*()]/;
}

# A clause from its head, `ID` or `ID, ours`, its braces (undef where there are none) and its text.
# What is wrong with it goes to the sub TELL; nothing comes back where it is no clause.
sub clause_of {
    my ($head, $braces, $text, $line, $tell) = @_;
    if ($head !~ /\A($ID)(, ours)?\z/) {
        $tell->($line, "a clause begins with an ID, or with an ID and `, ours`; here stands: $head") if is_slip($head);
        return;
    }
    my ($id, $ours) = ($1, defined $2);
    my @carriages = defined $braces ? split(/, */, $braces, -1) : ();
    my %seen;
    if (defined $braces && (!@carriages || grep { !/\A[a-z][a-z0-9]*\z/ || $seen{$_}++ } @carriages)) {
        $tell->($line, "$id: in braces stand names of carriages, each once, between commas; here stands: $braces");
        @carriages = ();
    }
    return { id => $id, line => $line, text => $text, ours => $ours, carriages => \@carriages };
}

# The clauses of docs/RULES.md in their order. Each has id, line, text, ours and carriages (names; none: one row).
# Defects of form are told where TELL is set: one script tells them, the others only read.
sub clauses_of_rules {
    my ($telling) = @_;
    my $path = 'docs/RULES.md';
    my $tell = sub { complain("$path:$_[0]", $_[1]) if $telling };
    my (@clauses, $open, $fenced, %first_line);
    my $number = 0;
    for my $line (lines_of($path)) {
        $number++;
        if ($line =~ /\A\s*```/) {
            $fenced = !$fenced;
            undef $open;
        } elsif ($fenced) {
            next;
        } elsif ($line =~ /\A\s*\z/ || $line =~ /\A#+ /) {
            undef $open;
        } elsif ($line =~ /\A\s*\|/) {
            undef $open;
            my ($first, @others) = cells_of($line);
            my ($head, $braces) = $first =~ /\A(.*?)(?: *\{([^{}]*)\})?\z/;
            my $clause = clause_of($head, $braces, join(' | ', @others), $number, $tell);
            push @clauses, $clause if $clause;
        } else {
            my $is_item = $line =~ s/\A\s*(?:[-*+]|[0-9]+[.)]) +//;
            undef $open if $is_item;
            my ($head, $braces, $text) = $line =~ /\A\s*\*\*([^*]+)\*\*(?: *\{([^{}]*)\})?(.*)\z/;
            my $clause = defined $head ? clause_of($head, $braces, $text, $number, $tell) : undef;
            if ($clause) {
                $tell->($number, "the clause $clause->{id} begins inside the clause $open->{id}") if $open;
                $open = $clause;
                push @clauses, $clause;
            } elsif ($open) {
                $open->{text} .= " $line";
            }
        }
    }
    for my $clause (@clauses) {
        my ($id, $at) = @$clause{qw(id line)};
        $clause->{text} = folded($clause->{text});
        $tell->($at, "the clause $id has no text") if $clause->{text} !~ /[^ |]/;
        $tell->($at, "the clause $id stands here twice, first on line $first_line{$id}") if $first_line{$id};
        $first_line{$id} //= $at;
    }
    return @clauses;
}

# ---- Code and proofs, without their comments ----

# A text without its comments. Their line ends are kept, so that lines keep their numbers. Block comments nest, and one
# that does not end reaches to the end of the text: what might be comment never counts as code.
sub without_comments {
    my ($text, $opens, $closes, $piece) = @_;
    my ($out, $depth) = ('', 0);
    pos($text) = 0;
    while (pos($text) < length $text) {
        if ($text =~ /\G$opens/gc) {
            $depth++;
        } elsif ($depth && $text =~ /\G$closes/gc) {
            $depth--;
        } elsif ($depth) {
            $text =~ /\G(.)/gcs;
            $out .= "\n" if $1 eq "\n";
        } else {
            $text =~ /\G$piece/gc;
            $out .= $1 // '';
        }
    }
    return $out;
}

# The next piece: a line comment, or what is kept, which is a quoted text or a run without quotes and comments.
# In antt a name may hold dashes, so `--` opens a comment only where no name stands before it.
my $name_letter = qr/[^\s(){}.;,\@"«»]/;
my $antt_run = qr/(?:[^-"{]|\{(?!-)|-(?!-)|(?<=$name_letter)-)+/;
my $antt_piece = qr/--[^\n]*|("(?:[^"\\\n]|\\.)*"|$antt_run|.)/s;
my $code_piece = qr{//[^\n]*|('(?:[^'\\\n]|\\.)'|"(?:[^"\\]|\\.)*"|[^'"/]+|.)}s;

sub bare_antt { return without_comments(text_of($_[0]), qr/\{-/, qr/-\}/, $antt_piece) }
sub bare_code { return without_comments(text_of($_[0]), qr{/\*}, qr{\*/}, $code_piece) }

# The theorems of an .antt file in their order: what is declared `pub NAME : ..` and defined below, `NAME .. = ..`.
# Each has name, line and statement (`NAME : ..`, white space folded; behind it the heads of the modules around it,
# which bind its variables). An abbrev, a record, a data type and what is unfoldable have another word before `pub` or
# behind it, and the parts of a record are not defined: these are none.
sub theorems_of {
    my ($path) = @_;
    my (@theorems, @modules, $head, $stating, $defining, %declared);
    my $number = 0;
    for my $line (split /\n/, bare_antt($path)) {
        $number++;
        next if $line !~ /\A(\s*)(\S+)/;
        my ($indent, $word) = (length $1, $2);
        if ($head) {
            $head->{text} .= " $line";
            undef $head if $line =~ /\swhere\s*\z/;
            next;
        }
        pop @modules while @modules && $modules[-1]{indent} >= $indent;
        if ($stating && ($indent > $stating->{indent} || $word =~ /\A[)\]}]/)) {
            $stating->{statement} .= " $line";
            next;
        }
        undef $stating;
        undef $defining if $defining && $indent <= $defining->{indent};
        delete $declared{$_} for grep { $_ > $indent } keys %declared;
        if ($line =~ /\A\s*(?:pub )?module\s/) {
            push @modules, { indent => $indent, text => $line };
            $head = $modules[-1] if $line !~ /\swhere\s*\z/;
        } elsif ($line =~ /\A\s*pub (\S+)(\s*\z| +[:{(].*)/ && $1 ne 'record' && $1 ne 'data') {
            my @around = map { '[' . folded($_->{text}) . ']' } @modules;
            $stating = { name => $1, line => $number, indent => $indent, statement => "$1$2", around => \@around };
            push @theorems, $stating;
            $declared{$indent}{$1} = $stating;
        } else {
            $defining //= $declared{$indent}{$word};
            $defining->{defined} = 1 if $defining && $line =~ /\s=(?:\s|\z)/;
        }
    }
    $_->{statement} = folded(join ' ', $_->{statement}, @{ $_->{around} }) for @theorems;
    return grep { $_->{defined} } @theorems;
}

1;
