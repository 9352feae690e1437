# Completion of bash's offers each tool and each option that docs/help.txt has, no other, and the names that --is and --can take.
dir=$(mktemp -d)
trap 'rm -rf "$dir"' EXIT

# offered WORDS ..: what is offered for the last of these words.
offered() {
  bash -c '. tools/completion.bash; COMP_WORDS=("$@"); COMP_CWORD=$(($# - 1)); _lnbd; printf "%s\n" "${COMPREPLY[@]}"' bash "$@" 2>/dev/null | sort -u | grep -v '^$'
}

# said NAME WANTED GOT: two lists are the same.
said() { if [ "$2" = "$3" ]; then echo "ok: $1"; else echo "failed: $1: $(diff <(echo "$2") <(echo "$3") | tr '\n' ' ')"; fi; }

tools=$(sed -n '/^What works today/,/^Exit status/s/^  \([a-z]\{2,\}\) .*/\1/p' docs/help.txt | sort -u)
said 'each tool is offered' "$(printf '%s\nhelp\n--help\n--version\n' "$tools" | sort -u)" "$(offered lnbd '')"
for tool in $tools; do
  wanted=$({ sed -n "/^  $tool /,/^\$/p" docs/help.txt | grep -oE -- '--[a-z-]+' | grep -v '^--totals$'; [ "$tool" = nbdinfo ] && echo --totals; echo --help; } | sort -u)
  said "the options of $tool are offered" "$wanted" "$(offered lnbd "$tool" --)"
done
names() { sed -n '/NAME of --is and --can is/,/status 2 says/p' docs/help.txt | tr -d '\n' | sed 's/.*--can is \(.*\); status.*/\1/' | sed 's/ or / /g' | tr -s ' ' | sed "$1" | tr -d ';,' | tr ' ' '\n' | grep . | sort -u; }
said 'the names that --is takes are offered' "$(names 's/;.*//')" "$(offered lnbd nbdinfo --is '')"
said 'and those that --can takes' "$(names 's/^[^;]*;//')" "$(offered lnbd nbdinfo --can '')"
said 'an option is completed' --destination-is-zero "$(offered lnbd nbdcopy --dest)"
said 'and after an address too' '--sessions' "$(offered lnbd serve nbd://localhost --ses)"
said 'a value of a number is left alone' '' "$(offered lnbd nbdcopy --requests '')"
said 'each page can be asked for' "$(cd docs && ls [a-z]*.md | sed 's/\.md$//' | sort)" "$(offered lnbd help '')"
