#!/bin/sh
# Prints the lines among which docs/DESIGN-PASS.md counts its places: tools/places.sh 1 .. 8, at the top.
src='crates/*/src/*.rt'
case "$1" in
1)
    grep -nE '^ *(pub(\([a-z]+\))? )?enum ' $src
    grep -nE -- '-> Option<(Fault|Refusal)>' $src
    grep -nE '^ *(pub(\([a-z]+\))? )?[a-z_]+: bool,$' $src
    grep -nE 'Err\([a-z]+\) => (return )?(Err|Next::Fault)\(|None => (return )?None|None => false|None => End|None => Turn|return (Err|Some)\([a-z]+\);|return None;|else \{$' $src
    ;;
2)
    # functions with their parameters, by name: twins stand beside one another
    grep -noE 'fn [a-z_]+(<[^(]*>)?\([^)]*' $src | sed -E 's/^([^:]*):([0-9]+):fn ([a-z_]+)(.*)$/\3 \1:\2 \4/' | sort
    ;;
3)
    grep -nE "^ *('?[a-z]+: )?(while |loop \{|for [a-z_(,&) ]+ in )" $src
    ;;
4)
    grep -nE ' as (u8|u16|u32|u64|usize)\b' $src
    grep -nE '^ *#\[derive\(' $src
    grep -nE 'fn (of|is|earlier|sooner|few|number|layer|example|line|verdict_on|word_class|sign_class|ranges_of|lines_of)\(' $src
    ;;
5)
    python3 - $src <<'PY'
import re, sys
for name in sys.argv[1:]:
    text = open(name).read()
    for found in re.finditer(r'\bfn (\w+)(<[^(]*>)?\(([^)]*(?:\([^)]*\)[^)]*)*)\)', text):
        parameters = [p for p in re.split(r',\s*(?![^<\[(]*[>\])])', found.group(3).strip()) if p.strip()]
        if len(parameters) >= 5:
            print(name, found.group(1), len(parameters))
PY
    ;;
6)
    grep -nE '\[[A-Za-z]+; [0-9A-Z]+\]|_count|: usize,' $src
    ;;
7)
    grep -nE 'enum (Guide|Call|Fixed|Turn)|fn\(|dyn |Fn(Mut|Once)?\(' $src
    ;;
8)
    find crates -path '*/proofs/*' -name 'Answers.antt' -o -path '*/proofs/*' -name 'Proof.antt'
    ;;
esac
