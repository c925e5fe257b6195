# Completion of flow's command lines for bash. It is loaded by bash-completion from
# /usr/share/bash-completion/completions/flow, or by a line 'source flow.bash' in ~/.bashrc.
# scripts/test_pages.py compares it with the help.

_flow() {
  local word=${COMP_WORDS[COMP_CWORD]}
  local command=
  local -i at
  for ((at = 1; at < COMP_CWORD; at++)); do
    case ${COMP_WORDS[at]} in
      -*) ;;
      *) command=${COMP_WORDS[at]}; break ;;
    esac
  done

  local flags=
  case $command in
    '') flags='--help --version' ;;
    solve) flags='--value --help' ;;
    cut) flags='--arcs --sink --help' ;;
    connect) flags='--undirected --pair --help' ;;
    check) flags='--feasible --help' ;;
  esac

  COMPREPLY=()
  if [[ $word == -* ]]; then
    mapfile -t COMPREPLY < <(compgen -W "$flags" -- "$word")
  elif [[ -z $command ]]; then
    mapfile -t COMPREPLY < <(compgen -W 'solve cut connect check help' -- "$word")
  elif [[ $command == help ]]; then
    mapfile -t COMPREPLY < <(compgen -W 'solve cut connect check' -- "$word")
  else
    compopt -o filenames 2> /dev/null
    mapfile -t COMPREPLY < <(compgen -f -- "$word")
  fi
}

complete -F _flow flow
