# Completion of `bitfields` for bash. Printed by .ci/manual from its help text.
_bitstream_bitfields() {
  local word=${COMP_WORDS[COMP_CWORD]}
  COMPREPLY=()
  case $COMP_CWORD in
    1) COMPREPLY=($(compgen -W "pack unpack size repack --build --help" -- "$word")) ;;
    2) COMPREPLY=($(compgen -W "be le" -- "$word")) ;;
  esac
}
complete -F _bitstream_bitfields bitfields
