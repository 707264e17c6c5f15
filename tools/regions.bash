# Completion of `regions` for bash. Install it, once for all shells:
#     install -Dm644 tools/regions.bash ~/.local/share/bash-completion/completions/regions
# or read it into one shell: source tools/regions.bash

# prints the options of a command
_regions_options() {
  case $1 in
    synthesize) echo --from --jobs ;;
    split) echo --from --jobs --system ;;
    factor) echo --from --class --jobs ;;
    isomorphic) echo --from --from2 ;;
    examine) echo --from --json ;;
    verify | check | convert) echo --from ;;
  esac
}

# prints how many positional arguments precede the word to complete
_regions_position() {
  local i count=0
  for ((i = 2; i < COMP_CWORD; i++)); do
    case ${COMP_WORDS[i]} in
      --from | --from2 | --jobs | --class) ((i++)) ;;
      -*) ;;
      *) ((count++)) ;;
    esac
  done
  echo "$count"
}

# prints the words that the word to complete may be, or nothing if it is a file name
_regions_words() {
  local classes='none pure plain safe 2-bounded 2-marking output-nonbranching pure,safe pure,plain,safe'
  if [ "$COMP_CWORD" = 1 ]; then
    echo synthesize verify check split factor isomorphic examine convert generate selftest
    return
  fi
  case ${COMP_WORDS[COMP_CWORD - 1]} in
    --from | --from2) echo apt graph words ; return ;;
    --jobs) echo 1 2 4 8 16 ; return ;;
    --class) echo "$classes" ; return ;;
  esac
  case ${COMP_WORDS[COMP_CWORD]} in
    -*) _regions_options "${COMP_WORDS[1]}" ; return ;;
  esac
  case ${COMP_WORDS[1]}/$(_regions_position) in
    synthesize/0 | check/0) echo "$classes" ;;
    convert/0) echo apt graph ;;
    generate/0) echo grid doubling lock ;;
    generate/1 | selftest/0) echo 1 2 3 4 ;;
  esac
}

_regions() {
  local words current=${COMP_WORDS[COMP_CWORD]}
  words=$(_regions_words)
  if [ -n "$words" ]; then
    mapfile -t COMPREPLY < <(compgen -W "$words" -- "$current")
  else
    mapfile -t COMPREPLY < <(compgen -f -- "$current")
  fi
}

complete -o filenames -F _regions regions
