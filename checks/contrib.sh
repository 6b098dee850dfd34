#!/usr/bin/env bash
# Whether each subcommand and each option of confer stands in its man page and in its completions for bash, zsh and fish, in contrib/: an
# option once for each subcommand that has it, and no option that the program does not have. The options are those of the program's own
# help, where it is built (`rt run` in crates/confer leaves it in crates/confer/out), and those of its source where it is not. The least and
# the greatest value of an option, and its default, are those of the source; the man page and the completions for zsh and fish say them.
# Takes a second.
set -eu
top=$(cd "$(dirname "$0")/.." && pwd)
program=$top/crates/confer/out/confer
source=$top/crates/confer/src/cli/command.rt
missing=0

# the lines `SUBCOMMAND OPTION`, with the option `-` for the subcommand alone
from_help() {
    local subcommand
    for subcommand in $("$program" --help 2>&1 | sed -n '/^Commands:/,/^$/s/^  \([a-z]*\) .*/\1/p' | grep -vx help); do
        echo "$subcommand -"
        "$program" "$subcommand" --help 2>&1 | sed -n 's/^ *\(-[a-zA-Z], \)\{0,1\}--\([a-z-]*\).*/\2/p' | grep -vx help | sed "s/^/$subcommand /" || true
    done
}

# the same, from the functions that make the subcommands and the options
from_source() {
    perl -e '
        local $/;
        my $text = <>;
        my %option;
        while ($text =~ /^fn (\w+_option)\b.*?\n\{\n(.*?)^\}/msg) {
            my ($name, $body) = ($1, $2);
            $option{$name} = $1 if $body =~ /\(\s*alloc,\s*"([a-z-]+)"/;
        }
        while ($text =~ /^fn (?!with_)(\w+)_command\b.*?\n\{\n(.*?)^\}/msg) {
            my ($subcommand, $body) = ($1, $2);
            print "$subcommand -\n";
            print "$subcommand $option{$1}\n" while $body =~ /\b(?!with_)(\w+_option)\(/g;
        }
    ' "$source"
}

# the lines `SUBCOMMAND OPTION NUMBER..`: the least and the greatest value and the default, as far as an option has them
numbers_from_source() {
    perl -e '
        local $/;
        my $text = <>;
        my (%option, %numbers);
        while ($text =~ /^fn (\w+_option)\b.*?\n\{\n(.*?)^\}/msg) {
            my ($name, $body) = ($1, $2);
            $option{$name} = $1 if $body =~ /\(\s*alloc,\s*"([a-z-]+)"/;
            my @numbers = $body =~ /\.range\(([\d_]+)\.\.=([\d_]+)\)/;
            push @numbers, $1 if $body =~ /\.default_value\("(\w+)"\)/;
            $numbers{$name} = join " ", map { s/_//gr } @numbers;
        }
        while ($text =~ /^fn (?!with_)(\w+)_command\b.*?\n\{\n(.*?)^\}/msg) {
            my ($subcommand, $body) = ($1, $2);
            print "$subcommand $option{$1} $numbers{$1}\n" while $body =~ /\b(?!with_)(\w+_option)\(/g;
        }
    ' "$source"
}

# what a page says of an option of the subcommand
text_of() {
    case $1 in
        confer.1) part_of "$1" "$2" | sed -n "/^\.B.*--$3\b/,/^\.TP/p" | sed 1d ;;
        _confer) part_of "$1" "$2" | grep -- "--$3\[" ;;
        confer.fish) part_of "$1" "$2" | grep -- "--$3 " ;;
    esac
}

# the part of a page that speaks of the subcommand
part_of() {
    case $1 in
        confer.1) sed -n "/^\.SS $2\$/,/^\.S[SH]/p" "$top/contrib/$1" | sed 's/\\-/-/g' ;;
        confer.bash) grep -E "^ *($2:\*|.*[| ]$2:\*)" "$top/contrib/$1" || true ;;
        _confer) sed -n "/^        \(.*| \)\{0,1\}$2\( |.*\)\{0,1\})\$/,/^            ;;/p" "$top/contrib/$1" ;;
        confer.fish) grep "__fish_seen_subcommand_from $2'" "$top/contrib/$1" | sed 's/ -l / --/' || true ;;
    esac
}

# the options that a page gives the subcommand; other lines of the man page may speak of another subcommand's
options_in() {
    case $1 in
        confer.1) part_of "$1" "$2" | grep -E '^\.BI? --' ;;
        *) part_of "$1" "$2" ;;
    esac | grep -oE -- '--[a-z][a-z-]*' | sort -u
}

# says FILE SUBCOMMAND OPTION: the file names it
says() {
    if [ "$3" = - ]; then
        grep -qw -- "$2" "$top/contrib/$1"
    else
        part_of "$1" "$2" | grep -qE -- "--$3([^a-z-]|\$)"
    fi
}

if [ -x "$program" ] && [ "$program" -nt "$source" ]; then
    options=$(from_help)
else
    options=$(from_source)
fi
[ "$(wc -l <<< "$options")" -ge 12 ] || { echo "these are not all options: $options"; exit 1; }
while read -r subcommand option; do
    for file in confer.1 confer.bash _confer confer.fish; do
        says "$file" "$subcommand" "$option" || { echo "contrib/$file lacks $subcommand ${option/#-/}"; missing=1; }
    done
done <<< "$options"
for subcommand in $(cut -d' ' -f1 <<< "$options" | sort -u); do
    for file in confer.1 confer.bash _confer confer.fish; do
        for option in $(options_in "$file" "$subcommand"); do
            if [ "$option" != --help ] && ! grep -qx "$subcommand ${option#--}" <<< "$options"; then
                # a line of the completion for bash may name options of two subcommands
                [ "$file" = confer.bash ] && grep -q " ${option#--}\$" <<< "$options" && continue
                echo "contrib/$file has $subcommand $option, which is no option"
                missing=1
            fi
        done
    done
done
while read -r subcommand option numbers; do
    for file in confer.1 _confer confer.fish; do
        for number in $numbers; do
            text_of "$file" "$subcommand" "$option" | grep -qw -- "$number" && continue
            echo "contrib/$file does not say $number of $subcommand --$option"
            missing=1
        done
    done
done < <(numbers_from_source)
[ "$missing" = 0 ] && echo 'each option stands in the man page and in the completions, with its numbers'
exit "$missing"
