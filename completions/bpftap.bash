# Completions of bpftap for bash. Source this file, or let bash-completion find it under the name bpftap.

_bpftap_commands='check explain compare info cut split parts join steps run help'
_bpftap_topics='check explain compare info cut split parts join steps run expressions'

# Whether a value has to follow an option, and what it may be then: words, the name of a file, or anything.
_bpftap_value() {
  case $1,$2 in
    cut,-o | split,-o) mapfile -t COMPREPLY < <(compgen -W 'little big' -- "$3") ;;
    cut,-u | split,-u) mapfile -t COMPREPLY < <(compgen -W 'micro nano' -- "$3") ;;
    check,-f | explain,-f | compare,-f | compare,-w | cut,-f | cut,-w | steps,-p) compopt -o default ;;
    check,-s | check,-e | check,-p | explain,-s | explain,-e | explain,-p | explain,--exactly | explain,--at-* | compare,-s | cut,-s | cut,-e | cut,--bytes) ;;
    *) return 1 ;;
  esac
}

# The options of a command, or of the program if there is none so far.
_bpftap_options() {
  case $1 in
    '') echo '--hints -h --help -V --version' ;;
    check) echo '-d -x --json --dot -p -s -e -f -h --help' ;;
    explain) echo '-s -e -f -p -c -l -q --exactly --at-least --at-most --json -h --help' ;;
    compare) echo '-s -f -q -w --json -h --help' ;;
    info | run | parts) echo '--json -h --help' ;;
    cut) echo '-s -e -f -o -u -c -w --bytes --json -h --help' ;;
    split) echo '-o -u --json -h --help' ;;
    join) echo '-h --help' ;;
    steps) echo '-v -p --json -h --help' ;;
  esac
}

_bpftap() {
  local word=${COMP_WORDS[COMP_CWORD]} before=${COMP_WORDS[COMP_CWORD - 1]} command='' ended='' n
  COMPREPLY=()
  for ((n = 1; n < COMP_CWORD; n++)); do
    case ${COMP_WORDS[n]} in
      --) ended=yes ;;
      -*) ;;
      *) [ -n "$command" ] || command=${COMP_WORDS[n]} ;;
    esac
  done
  if [ -z "$ended" ]; then
    _bpftap_value "$command" "$before" "$word" && return
    if [[ $word == -* ]]; then
      mapfile -t COMPREPLY < <(compgen -W "$(_bpftap_options "$command")" -- "$word")
      return
    fi
  fi
  case $command in
    '') mapfile -t COMPREPLY < <(compgen -W "$_bpftap_commands" -- "$word") ;;
    help) mapfile -t COMPREPLY < <(compgen -W "$_bpftap_topics" -- "$word") ;;
    # The first word of `check` is an expression.
    explain | compare | info | cut | split | parts | join | steps | run) compopt -o default ;;
  esac
}

complete -F _bpftap bpftap
