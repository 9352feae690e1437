# Completion of bash's for lnbd and ./lnbd: the tools, their options, and the names that --is and --can take. A check compares it with
# docs/help.txt, which has the same words.
_lnbd() {
  local word=${COMP_WORDS[COMP_CWORD]} before=${COMP_WORDS[COMP_CWORD - 1]} tool=${COMP_WORDS[1]} words= files=
  # (bash takes '=' for a word of its own)
  [ "$before" = = ] && before=${COMP_WORDS[COMP_CWORD - 2]}
  [ "$word" = = ] && word=
  # (the words of a program, behind --run, are taken for files)
  [ "$tool" = serve ] && [ "$before" != --run ] && [[ " ${COMP_WORDS[*]:2:COMP_CWORD-2} " = *' --run '* ]] && before=--file
  if [ "$COMP_CWORD" -eq 1 ]; then
    words='nbdcalls nbdinfo nbdcopy nbddump serve selftest help --help --version'
  else
    case $tool:$before in
      help:*) words='nbdcalls nbdinfo nbdcopy nbddump serve selftest errors recipes lnbd' ;;
      nbdinfo:--is) words='read-only rotational tls' ;;
      nbdinfo:--can) words='cache connect df fast-zero flush fua multi-conn read structured-reply trim write zero' ;;
      nbdinfo:--context) words='base:allocation' ;;
      nbdcopy:--connections | nbdcopy:--request-size | nbdcopy:--requests | nbdcopy:--sparse | nbdcopy:-[CRS]) ;;
      nbddump:--length | nbddump:--offset) ;;
      serve:--size | serve:--seed | serve:--sessions) ;;
      serve:--file)
        mapfile -t COMPREPLY < <(compgen -f -- "$word")
        return
        ;;
      serve:--run)
        mapfile -t COMPREPLY < <(compgen -c -- "$word")
        return
        ;;
      nbdinfo:*) words='--json --list --size --is --can --map --context --totals --help nbd:// nbd+unix:///?socket=' ;;
      nbdcopy:*)
        words='--allocated --connections --destination-is-zero --flush --no-extents --request-size --requests --sparse --help nbd:// nbd+unix:///?socket='
        files=yes
        ;;
      nbddump:*) words='--length --offset --help nbd:// nbd+unix:///?socket=' ;;
      serve:*) words='--size --seed --file --sessions --read-only --run --help nbd:// nbd+unix:///?socket=' ;;
      nbdcalls:* | selftest:*) words=--help ;;
    esac
  fi
  COMPREPLY=($(compgen -W "$words" -- "$word"))
  [ -n "$files" ] && mapfile -t -O "${#COMPREPLY[@]}" COMPREPLY < <(compgen -f -- "$word")
  case ${COMPREPLY[0]} in
    nbd*://*) compopt -o nospace 2>/dev/null ;;
  esac
}
complete -F _lnbd lnbd ./lnbd
