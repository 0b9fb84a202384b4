#!/usr/bin/env bash
# Asks a live service for all models of a formula: each one that it replies is forbidden by the next revision.
coproc mal { ./mal serve --workers 2 2> /dev/null; }
printf 't demo\nj all 1 1 16\np cnf 2 1\n1 2 0\na 0\n' >&"${mal[1]}"
while read -r word values <&"${mal[0]}"; do
    case $word in
    v) echo "$values" && printf 'p cnf 2 1\n%s\na 0\n' "$(printf '%s ' "$values" | sed -E 's/([1-9][0-9]*)/-\1/g; s/--//g')" >&"${mal[1]}" ;;
    l) break ;;
    esac
done
