# The manual pages: one for each tool, with the sections that libnbd's have, a line for whatis, and nothing that man warns of, on wide and on
# narrow terminals. Each option of docs/help.txt stands in its page's list.
. checks/need.sh
need lowdown lowdown
need man-db man

dir=$(mktemp -d)
trap 'rm -rf "$dir"' EXIT
[ -e dist/PROVED ] || export SOURCE_DATE_EPOCH=1
if ! tools/manual "$dir" 2>"$dir/why"; then
  echo "failed: no manual pages are made: $(cat "$dir/why")"
  exit 0
fi

for page in lnbd.1 lnbd.3 $(ls docs | sed -n 's/^\([a-z]*\)\.md$/lnbd-\1.1/p' | sed 's/^lnbd-\(errors\|recipes\)\.1$/lnbd-\1.7/; /^lnbd-lnbd\.1$/d'); do
  wrong=
  for width in 60 80 132; do
    LC_ALL=C.UTF-8 MANWIDTH=$width man -l --warnings -P cat "$dir/$page" >"$dir/text" 2>"$dir/warnings"
    warned=$(head -n 3 "$dir/warnings")
    # (a narrow terminal breaks what it can)
    [ -n "$warned" ] && [ "$width" -ge 80 ] && wrong="$wrong at $width columns: $warned;"
    [ -s "$dir/text" ] || wrong="$wrong nothing at $width columns;"
  done
  LC_ALL=C.UTF-8 MANWIDTH=80 man -l -P cat "$dir/$page" >"$dir/text" 2>/dev/null
  sections='NAME SYNOPSIS DESCRIPTION OPTIONS EXAMPLES EXIT.STATUS SEE.ALSO'
  case $page in
    *.7) sections='NAME DESCRIPTION SEE.ALSO' ;;
    *.3) sections='NAME SYNOPSIS DESCRIPTION OWNERSHIP THREADS ERRORS SEE.ALSO DIFFERENCES.*' ;;
    lnbd-nbdcalls.1) sections='NAME SYNOPSIS DESCRIPTION EXAMPLES EXIT.STATUS SEE.ALSO' ;;
  esac
  [ "${page%.1}" = "$page" ] || sections="$sections DIFFERENCES.*"
  for section in $sections; do
    grep -qE "^$section\$" "$dir/text" || wrong="$wrong no section $section;"
  done
  lexgrog "$dir/$page" 2>/dev/null | grep -q "\"${page%.*} - " || wrong="$wrong no line for whatis;"
  grep -qE 'T\{|T\}|\\f|^\.[A-Z]' "$dir/text" && wrong="$wrong marks of the formatter in its text;"
  if [ -z "$wrong" ]; then echo "ok: man renders $page"; else echo "failed: $page:$wrong"; fi
done

# Long lines of commands are not cut: each block of the pages stands in the text as it is.
for tool in $(sed -n '/^What works today/,/^Exit status/s/^  \([a-z]\{2,\}\) .*/\1/p' docs/help.txt | sort -u | grep -v '^nbdcalls$'); do
  missing=
  LC_ALL=C.UTF-8 MANWIDTH=80 man -l -P cat "$dir/lnbd-$tool.1" 2>/dev/null >"$dir/text"
  for word in $(sed -n "/^  $tool /,/^\$/p" docs/help.txt | grep -oE -- '--[a-z-]+' | grep -v '^--help$' | sort -u); do
    sed -n '/^OPTIONS/,/^[A-Z]/p' "$dir/text" | grep -qE "^ +.*$word( |,|\$)" || missing="$missing $word"
  done
  if [ -z "$missing" ]; then echo "ok: the options of $tool stand in its manual page"; else echo "failed: the manual page of $tool lacks$missing"; fi
done
