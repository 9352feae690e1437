# Sourced by ./lnbd, and by the lnbd of the package: the words that print a page or tell of the program. The pages lie in $pages, and
# what else there is in $top. Any other word is the program's, and this returns.

# page NAME: prints this page; there is none for a word that names none.
page() {
  case $1 in
    *[!a-z]* | '') return 1 ;;
  esac
  [ -r "$pages/$1.md" ] && exec cat "$pages/$1.md"
}

case $#:$1 in
  0:) cat "$pages/help.txt" >&2; exit 1 ;;
  1:--help | 1:-h | 1:help) exec cat "$pages/help.txt" ;;
  1:--version) exec "$top/tools/version" ;;
  1:--prove) exec "$top/tools/start" --prove ;;
  2:help)
    page "$2"
    printf 'lnbd: there is no page of %s; lnbd help lists the tools\n' "$2" >&2
    exit 1
    ;;
  2:*)
    case $2 in
      --help | -h) page "$1" ;;
    esac
    ;;
esac
