# Completion of soqe's words for bash. Source it, or let ./install put it in place.
_soqe() {
  local given=("${COMP_WORDS[@]:1:COMP_CWORD-1}") words=
  case "${given[*]}" in
    '') words=elim ;;
    elim) words=--method ;;
    'elim --method') words='sign dls' ;;
  esac
  COMPREPLY=()
  local word
  for word in $words; do
    [[ $word == "${COMP_WORDS[COMP_CWORD]}"* ]] && COMPREPLY+=("$word")
  done
}
complete -o default -F _soqe soqe ./soqe
