#!/usr/bin/env perl
# Puts a mutant into a copy of its crate: apply_edit.pl FOLDER EDIT. Ends with another status than 0 where the edit does not fit the code.
use strict;
use warnings;

my ($crate, $edit) = @ARGV;
my (%text, $file, $old);
open my $in, "<", $edit or die "$edit: $!\n";
while (my $line = <$in>) {
    chomp $line;
    if ($line =~ /^file: (.*)$/) {
        $file = $1;
        next if exists $text{$file};
        open my $from, "<", "$crate/$file" or die "$file: $!\n";
        local $/;
        $text{$file} = <$from>;
    } elsif ($line =~ /^old: (.*)$/) {
        $old = $1;
    } elsif ($line =~ /^new: ?(.*)$/) {
        my $new = $1;
        my $count = () = $text{$file} =~ /\Q$old\E/g;
        die "\"$old\" stands $count times in $file\n" if $count != 1;
        $text{$file} =~ s/\Q$old\E/$new/;
    } elsif ($line ne "") {
        die "no line of an edit: $line\n";
    }
}
for (keys %text) {
    open my $to, ">", "$crate/$_" or die "$_: $!\n";
    print $to $text{$_};
}
