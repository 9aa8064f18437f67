# Completion of `formats` for bash. Printed by .ci/manual from its help text.
_bitstream_formats() {
  local word=${COMP_WORDS[COMP_CWORD]}
  COMPREPLY=()
  if [[ $word == -* ]] || ((COMP_CWORD == 1)); then COMPREPLY=($(compgen -W "h264 h265 av1 adts ogg ts flac-headers gzip-headers flac flac-wav flac-test flac-encode gunzip --json --table --only --errors --help --version" -- "$word")); fi
}
complete -o default -F _bitstream_formats formats
