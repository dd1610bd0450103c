# Completes the words of wblog in bash: source this file.
_wblog() {
  if [ "$COMP_CWORD" -eq 1 ]; then
    mapfile -t COMPREPLY < <(compgen -W "format inspect recover serve workload" -- "$2")
  elif [ "$COMP_CWORD" -le 3 ]; then
    mapfile -t COMPREPLY < <(compgen -f -- "$2")
  fi
}
complete -o filenames -F _wblog wblog
