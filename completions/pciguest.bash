# Completion of the words of pciguest for bash. It is installed as share/bash-completion/completions/pciguest.
# The commands and options are those that `pciguest help` and `pciguest help COMMAND` list.
_pciguest() {
  local IFS=$' \t\n' word=${COMP_WORDS[COMP_CWORD]} before=("${COMP_WORDS[@]:1:COMP_CWORD-1}") help words one
  COMPREPLY=()
  if [[ ${before[*]} == '' || ${before[*]} == help ]]; then
    words=$("$1" help 2> /dev/null | sed -n 's/^  \([a-z]*\)  .*/\1/p')
    [[ ${before[*]} == '' ]] && words+=' --help --version' || words=${words/help/}
    mapfile -t COMPREPLY < <(compgen -W "$words" -- "$word")
    return
  fi
  help=$("$1" help "${before[0]}" 2> /dev/null)
  [[ $help == *' <BOARD>'* ]] || return
  words=" $(sed -n 's/^ *\(--[a-z]*\)  .*/\1/p' <<< "$help" | tr '\n' ' ')"
  # an option comes once, and nothing comes after the board
  for one in "${before[@]:1}"; do
    [[ $words == *" $one "* ]] || return
    words=${words/ $one / }
  done
  compopt -o filenames 2> /dev/null
  mapfile -t COMPREPLY < <(compgen -f -X '!*.toml' -- "$word"; compgen -d -- "$word"; compgen -W "$words" -- "$word")
}
complete -F _pciguest pciguest
