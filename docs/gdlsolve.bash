# Completion of gdlsolve's words in bash: source this file, or put it among the files of bash-completion under the name gdlsolve.
# Where it offers no word, as behind a <, bash completes the names of files. tools/lint/help_pages writes it from the help of the program.

# The command: the first word behind the name of the program that is no <, no > and no --rules, nor the file behind one. --proved is a word of the
# script ./gdlsolve alone, and stands before the command.
_gdlsolve_command() {
  local at
  for ((at = 1; at < COMP_CWORD; at++)); do
    case ${COMP_WORDS[at]} in
      *[\<\>]) at=$((at + 1)) ;;
      --proved) ;;
      --rules) [ "${COMP_WORDS[at + 1]-}" = '=' ] && at=$((at + 1)); at=$((at + 1)) ;;
      *) command=${COMP_WORDS[at]}; return ;;
    esac
  done
}

_gdlsolve() {
  local word=${COMP_WORDS[COMP_CWORD]} before=${COMP_WORDS[COMP_CWORD-1]} command= words=
  COMPREPLY=()
  case $before in *[\<\>]) return 0 ;; esac
  case $word in [\<\>]*) return 0 ;; esac
  _gdlsolve_command
  case $before in
    --at-bound) words='zero goal' ;;
    --cut) words='1 2 4 8 16 2x2 4x2 4x4 8x2 2x2x2 4x2x2' ;;
    --table) words='0 16 64 256 1024 4096' ;;
    --rules | --after | --role | --depth | --unfinished | --window) return 0 ;;
    *)
      case $command in
        '')
          words='show check lint unroll net moves state solve values serve help --help --version'
          [ "${COMP_WORDS[0]}" = ./gdlsolve ] && words+=' --prove --proved'
          ;;
        show) words='--rules --help' ;;
        check) words='--whole --tighten --rules --help' ;;
        lint) words='--rules --help' ;;
        unroll) words='--tighten --rules --help' ;;
        net) words='--whole --tighten --rules --help' ;;
        moves) words='--after --whole --tighten --rules --help' ;;
        state) words='--after --whole --tighten --rules --help' ;;
        solve) words='--role --depth --at-bound --unfinished --window --deepen --cut --table --after --whole --tighten --rules --help' ;;
        values) words='--role --depth --at-bound --unfinished --lines --cut --table --after --whole --tighten --rules --help' ;;
        serve) words='--whole --tighten --help' ;;
        help) words='show check lint unroll net moves state solve values serve' ;;
      esac
      ;;
  esac
  mapfile -t COMPREPLY < <(compgen -W "$words" -- "$word")
}
complete -o bashdefault -o default -F _gdlsolve gdlsolve ./gdlsolve
