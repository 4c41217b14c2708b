# bash completion for fixed
# printed by make options: completions
_fixed_commands='convert column json bits show format modes lines enclose least fit pack unpack repack constants sort'
_fixed_formats='I16F16 U16F16 I8F8 U8F8 I32F32 U32F32 I1F15 I1F31 I4F4 U0F8'
# The options of a command.
_fixed_options() {
  case $1 in
    convert) echo '--from --radix --policy --mode --target-mode --print --places --places-mode --trim --skip-blank --comments --limit --words --separators --refused --keep --report --rejects --output' ;;
    column) echo '--from --radix --policy --mode --target-mode --print --places --places-mode --delimiter --all --header --skip --trim --decimal --decimal-out --thousands --thousands-anywhere --empty --into --keep --limit --report --rejects --output' ;;
    json) echo '--from --radix --policy --mode --target-mode --print --places --places-mode --trim --skip-blank --comments --keep --limit --report --rejects --output' ;;
    bits) echo '--radix --field --swap --json --file --trim --skip-blank --comments --limit --output' ;;
    show) echo '--radix --policy --mode --json --file --trim --skip-blank --comments --limit --output' ;;
    format) echo '--json --output' ;;
    lines | enclose) echo '--trim --skip-blank --comments --limit --rejects --output' ;;
    least) echo '--why --trim --skip-blank --comments --limit --output' ;;
    fit) echo '--width --error --any --whole --beyond --signed --why --range --radix --trim --skip-blank --comments --limit --output' ;;
    pack) echo '--from --endian --radix --policy --mode --trim --skip-blank --comments --limit --report --output' ;;
    unpack) echo '--to --endian --policy --target-mode --print --places --places-mode --skip --count --limit --output' ;;
    repack) echo '--endian --endian-out --policy --target-mode --limit --report --output' ;;
    constants) echo '--guard --numerals --name --decimal --radix --policy --mode --trim --skip-blank --comments --limit --output' ;;
    sort) echo '--limit --output' ;;
  esac
}
# What may be typed after an option of a command, where it takes a value.
_fixed_value() {
  case $1:$2 in
    convert:--from | column:--from | json:--from) echo 'text bits' ;;
    *:--radix | *:-r) echo '2 8 10 16' ;;
    *:--policy | *:-p) echo 'checked saturating wrapping symmetric' ;;
    *:--mode | *:-m | *:--target-mode | *:--places-mode) echo 'nearest ties-away ties-zero ties-up ties-down floor ceil zero away' ;;
    convert:--print) echo 'text bits hex readmemh value all error ulps' ;;
    *:--places | *:--comments | *:--limit | *:--separators | *:--refused | *:--delimiter | *:-d | *:--skip | \
      *:--decimal | *:--decimal-out | *:--thousands | *:--thousands-anywhere | *:--into | *:--field | \
      *:--error | *:-e | *:--whole | *:--count | *:--guard | *:--name) echo '@any' ;;
    convert:--keep) echo 'text all' ;;
    *:--rejects | *:--output | *:-o | *:--file) echo '@files' ;;
    column:--print | json:--print | unpack:--print) echo 'text bits hex readmemh value all' ;;
    *:--empty) echo 'fault keep 0' ;;
    *:--width | *:-w) echo '8 16 32 64' ;;
    pack:--from) echo 'text bits f64 f32' ;;
    *:--endian | *:--endian-out) echo 'little big' ;;
    *:--to) echo 'text f64 f32' ;;
    *:--numerals) echo '@formats' ;;
  esac
}
# What may be typed at the places of a command: the last takes all that are left.
_fixed_operands() {
  case $1 in
    convert | unpack) echo '@formats @formats+@files' ;;
    column) echo '@columns @formats @formats+@files' ;;
    json) echo '@any @formats @formats+@files' ;;
    bits | show) echo '@formats @any' ;;
    format) echo '@formats' ;;
    lines | enclose | fit) echo '@files' ;;
    least) echo '2+8+10+16+@files' ;;
    pack) echo '@formats @files' ;;
    repack) echo '@formats @formats+@files @files' ;;
    constants) echo 'c+rust+array-c+array-rust+vhdl+readmemh+coe+mif+@files' ;;
    sort) echo 'limit+@files' ;;
  esac
}
# end of completions
# Offers what may be typed: words, or what @files, @formats or @any stands for.
_fixed_offer() {
  local words=''
  case $1 in
    @files)
      mapfile -t COMPREPLY < <(compgen -f -- "$2")
      return
      ;;
    @formats) words=$_fixed_formats ;;
    @any) return ;;
    *) words=$1 ;;
  esac
  mapfile -t COMPREPLY < <(compgen -W "$words" -- "$2")
}
# The names in the header of the first file among the words, one a line, each after the part of a list that is there.
_fixed_names() {
  local word i delimiter=, file='' before=''
  for word in "${COMP_WORDS[@]:2}"; do
    [ -z "$file" ] && [ -f "$word" ] && file=$word
  done
  for ((i = 2; i < ${#COMP_WORDS[@]} - 1; i++)); do
    case ${COMP_WORDS[i]} in
      -d | --delimiter) delimiter=${COMP_WORDS[i + 1]} ;;
    esac
  done
  case $delimiter in
    tab | '\t') delimiter=$'\t' ;;
  esac
  [ -n "$file" ] || return
  case $1 in
    *,*) before=${1%,*}, ;;
  esac
  head -n 1 -- "$file" | tr -d '"\r' | tr "$delimiter" '\n' | while IFS= read -r word || [ -n "$word" ]; do
    printf '%s%s\n' "$before" "$word"
  done
}
# How many operands of the command come before the current word.
_fixed_place() {
  local i count=0
  for ((i = 2; i < COMP_CWORD; i++)); do
    case ${COMP_WORDS[i]} in
      -*) ;;
      *) [ -n "$(_fixed_value "$1" "${COMP_WORDS[i - 1]}")" ] || ((count++)) ;;
    esac
  done
  echo "$count"
}
# The operands that may be typed at the current place of the command.
_fixed_words() {
  local word words='' places place
  read -ra places < <(_fixed_operands "$1")
  place=$(_fixed_place "$1")
  [ "${#places[@]}" -gt 0 ] || return
  [ "$place" -lt "${#places[@]}" ] || place=$((${#places[@]} - 1))
  for word in ${places[place]//+/ }; do
    case $word in
      @columns)
        case " ${COMP_WORDS[*]} " in
          *' -H '* | *' --header '*) mapfile -t COMPREPLY < <(IFS=$'\n'; compgen -W "$(_fixed_names "$2")" -- "$2") ;;
        esac
        return
        ;;
      @formats) words="$words $_fixed_formats" ;;
      @any | @files) ;;
      *) words="$words $word" ;;
    esac
  done
  mapfile -t COMPREPLY < <(compgen -f -W "$words" -- "$2")
}
_fixed() {
  local word=$2 previous=$3 command=${COMP_WORDS[1]} value
  COMPREPLY=()
  if [ "$COMP_CWORD" -eq 1 ]; then
    _fixed_offer "$_fixed_commands help --help --version" "$word"
    return
  fi
  value=$(_fixed_value "$command" "$previous")
  if [ -n "$value" ]; then
    _fixed_offer "$value" "$word"
    return
  fi
  case $command:$word in
    help:*) _fixed_offer "$_fixed_commands" "$word" ;;
    *:-*) _fixed_offer "$(_fixed_options "$command") --help --version" "$word" ;;
    *) _fixed_words "$command" "$word" ;;
  esac
}
complete -o filenames -F _fixed fixed
