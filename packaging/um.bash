# Bash completion for um and its arguments.
_um() {
  local commands='code replay show margin repair link end make' word=${COMP_WORDS[COMP_CWORD]} choices=
  case $COMP_CWORD:${COMP_WORDS[1]} in
    1:*) choices="$commands help --help --version" ;;
    2:help) choices=$commands ;;
    2:link) choices='0 1 2 3 4 5 6 7 --help' ;;
    2:end) choices='mob net --help' ;;
    3:link) choices='sacch' ;;
    3:end | 3:make) choices='0 1 2 3 4 5 6 7' ;;
    2:*) [[ " $commands " != *" ${COMP_WORDS[1]} "* ]] || choices='--help' ;;
  esac
  mapfile -t COMPREPLY < <(compgen -W "$choices" -- "$word")
}
complete -o default -F _um um
