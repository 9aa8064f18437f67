# Completion of `format` for bash. Printed by .ci/manual from its help text.
_bitstream_format() {
  local word=${COMP_WORDS[COMP_CWORD]}
  COMPREPLY=()
  if [[ $word == -* ]]; then COMPREPLY=($(compgen -W "--c --show --pack --program --repeat --offset --count --skip --keep-going --numbered --in --table --html --picture --svg --help" -- "$word")); fi
}
complete -o default -F _bitstream_format format
