#!/bin/sh
# Tries the programs in docs/unbuilt against the compiler, each as a crate in a copy of the repository. One with a line
# `// refused: WORDS` must be refused with those words; another must pass. Prints a line for each, and fails where one
# goes otherwise: tools/unbuilt.sh, at the top.
copy=$(mktemp -d) || exit 1
trap 'rm -rf "$copy"' EXIT
mkdir "$copy/crates" && cp crates.txt "$copy" || exit 1
for crate in crates/*; do
    mkdir "$copy/$crate" && for part in src specs proofs; do
        [ ! -e "$crate/$part" ] || cp -r "$crate/$part" "$copy/$crate" || exit 1
    done
done
wrong=0
for text in docs/unbuilt/*.txt; do
    name=$(basename "$text" .txt)
    mkdir -p "$copy/crates/$name/src" && cp "$text" "$copy/crates/$name/src/lib.rt"
    echo "$name: refusal formula sheet store run walk" >> "$copy/crates.txt"
    said=$(cd "$copy/crates/$name" && rt check 2>&1)
    passed=$?
    words=$(sed -n 's|^// refused: ||p' "$text")
    if [ -z "$words" ] && [ $passed -eq 0 ]; then
        echo "$name passes"
    elif [ -n "$words" ] && [ $passed -ne 0 ] && echo "$said" | grep -qF "$words"; then
        echo "$name is refused: $words"
    else
        echo "$name goes otherwise:"
        echo "$said" | grep -v '^statements' | tail -3
        wrong=1
    fi
done
exit $wrong
