# bash completion for fixed_tool
_fixed_tool() {
  if [ "$COMP_CWORD" -eq 1 ]; then
    mapfile -t COMPREPLY < <(compgen -W 'limit self' -- "$2")
  fi
}
complete -F _fixed_tool fixed_tool
