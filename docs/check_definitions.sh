#!/usr/bin/env bash
# Compares docs/DEFINITIONS.md with the spec modules that the contract of `run` reaches, from the words that its clauses name
# down to the last import. Silent where they agree; prints `+ FILE` for a module that the page lacks and `- FILE` for one that
# it should not have, and ends with 1, where they differ.
set -u
cd "$(dirname "${BASH_SOURCE[0]}")/.." || exit 1
program=crates/script_run/src/program.rt
page=docs/DEFINITIONS.md

# imports FILE: each import of a spec module, as `crate path words`, with commas and braces as spaces
imports() {
    tr '\n' ' ' <"$1" | grep -o 'use Rattle\.[a-z_]*\.specs\.[A-Za-z_.]*\.{[^}]*}' |
        sed -e 's/^use Rattle\.\([a-z_]*\)\.specs\.\([A-Za-z_.]*\)\.{/\1 \2 /' -e 's/[{},]/ /g' -e 's/◌//g'
}

# spec_file CRATE PATH: where a module stands, where it is one of this repository
spec_file() {
    local file="crates/$1/specs/${2//.//}.antt"
    [ -e "$file" ] && echo "$file"
}

# the words of the clauses of `run`
clauses=" $(sed -n '/^pub fn run</,/^{/p' "$program" | sed 's,//.*,,' | tr -s '(){}.,\n' ' ') "

declare -A reached
waiting=()
reach() {
    local file
    file=$(spec_file "$1" "$2") || return 0
    [ -n "${reached[$file]:-}" ] && return 0
    reached[$file]=1
    waiting+=("$file")
}

while read -r crate path words; do
    for word in $words; do
        case "$clauses" in *" $word "*) reach "$crate" "$path"; break ;; esac
    done
done < <(imports "$program")

while [ "${#waiting[@]}" -gt 0 ]; do
    file=${waiting[-1]}
    unset 'waiting[-1]'
    while read -r crate path _; do
        reach "$crate" "$path"
    done < <(imports "$file")
done

difference=$(diff <(grep -o '(\.\./crates/[^)]*\.antt)' "$page" | sed 's,^(\.\./\(.*\))$,\1,' | sort) \
    <(printf '%s\n' "${!reached[@]}" | sort) | sed -n -e 's/^</-/p' -e 's/^>/+/p')
[ -z "$difference" ] && exit 0
echo "$page and the contract of run differ:" >&2
echo "$difference" >&2
exit 1
