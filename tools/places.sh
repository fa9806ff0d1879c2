#!/bin/sh
# Lists lines of src/ at which a plainer form of today's language may stand: a heading for each kind of place, the lines,
# and how many they are. A line is a place to look at, no verdict. With a word, only the kinds whose heading begins so.
cd "$(dirname "$0")/.." || exit 1
only=$1
lines=$(mktemp) || exit 1
trap 'rm -f "$lines"' EXIT
show() {
    case $1 in "$only"*) ;; *) return ;; esac
    printf '== %s\n' "$1"
    grep -rnE "$2" crates/*/src --include='*.rt' | tee "$lines"
    printf '   %s\n' "$(wc -l <"$lines")"
}
show '1a own enums' '^ *(pub )?enum '
show '1b answers that are flags' 'Result<bool|-> bool'
show '1c numbers for cases' '=> [0-9]+,$'
show '1d refusals handed on by hand' 'let (Some|Ok)\(.*else \{|None => Err\(|Err\(_\) =>|Result<Result'
show '3 loops' '^ *(for|while|loop)\b'
show '4a conversions' 'fn [a-z_]*(_of|_code|_for)(<.*>)?\(|fn (bit|classify|word|octets_of)\('
show '4b printing' 'fn (print_|fmt)|fn [a-z_]*_name\('
show '4c structs and enums without derived comparison' 'derive\((Drop|Clone, Copy)\)'
show '5a what calls ask' 'requires'
show '5c fields with facts' 'ghost [a-z]+: \{ [a-z]'
show '6 buffers, tables and the memory of others' '(: |<)(&.a mut )?\[[A-Za-z0-9]+(; [A-Z0-9a-z_]+)?\]'
show '7 functions as values' 'dyn |: fn\(|F: Fn|\.map\(|\|[a-z_]+\| '
case '5b clauses that stand three times or more' in "$only"*)
    printf '== 5b clauses that stand three times or more\n'
    grep -rhoE '(requires|ensures)[^{]*\{.*\}' crates/*/src --include='*.rt' | sed -E 's/^(requires|ensures) *[a-z_]* *//' | sort | uniq -c | awk '$1 >= 3'
    printf '== 5b words in the clauses of three functions or more\n'
    grep -rhoE '(requires|ensures)[^{]*\{.*\}' crates/*/src --include='*.rt' | grep -oE '\(?[a-z_]+_value |Sound|Tied|low |pending |\bleft |\breading |kept' | sort | uniq -c | awk '$1 >= 3'
esac
