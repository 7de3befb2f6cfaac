# Completion of dcmbox in bash. Made by tools/tables from docs/tables.json.
_dcmbox() {
  local current=${COMP_WORDS[COMP_CWORD]} previous=${COMP_WORDS[COMP_CWORD - 1]} options
  COMPREPLY=()
  if [ "$COMP_CWORD" -eq 1 ]; then
    mapfile -t COMPREPLY < <(compgen -W 'serve replay show check index checkdir list arrange send echo help --help --version' -- "$current")
    return
  fi
  case $previous in
    --out | --quarantine | --to | --refused)
      compopt -o filenames
      mapfile -t COMPREPLY < <(compgen -d -- "$current")
      return
      ;;
    --bind)
      mapfile -t COMPREPLY < <(compgen -W '127.0.0.1 0.0.0.0 ::' -- "$current")
      return
      ;;
    --log)
      mapfile -t COMPREPLY < <(compgen -W 'text json' -- "$current")
      return
      ;;
    --port | --listen | --ae | --caller | --callers | --timeout | --idle | --max-pdu | --max-data | --per | --numbers | --quarantine-most | --at-once | --per-peer | --longest | --stop-file | --grace | --metrics | --storage-class | --transfer-syntax | --cut | --tag | --uid | --where | --columns | --pattern | --aec | --aet)
      return
      ;;
  esac
  case ${COMP_WORDS[1]} in
    serve) options='--port --out --bind --listen --ae --any-called --caller --callers --timeout --idle --max-pdu --max-data --verbose --quiet --log --per --numbers --quarantine --quarantine-most --no-sync --once --at-once --per-peer --longest --stop-file --grace --metrics --all-storage --storage-class --all-syntaxes --transfer-syntax --help' ;;
    replay) options='--out --ae --cut --per --all-storage --storage-class --all-syntaxes --transfer-syntax --help' ;;
    show) options='--recursive --follow --values --full --meta --tag --json --all-syntaxes --any --help' ;;
    check) options='--recursive --follow --strict --values --ignore-others --json --all-syntaxes --any --help' ;;
    index) options='--uid --new-uid --descriptions --all-syntaxes --any-name --ignore-others --follow --keep --drop --replace --strict --json --help' ;;
    checkdir) options='--json --help' ;;
    list) options='--series --instances --where --columns --ignore-others --follow --json --help' ;;
    arrange) options='--to --pattern --copy --dry-run --ignore-others --follow --json --help' ;;
    send) options='--aec --aet --move --refused --any-name --timeout --verbose --json --help' ;;
    echo) options='--aec --aet --timeout --help' ;;
    help) options='serve replay show check index checkdir list arrange send echo' ;;
    *) return ;;
  esac
  if [[ $current == -* || ${COMP_WORDS[1]} == help ]]; then
    mapfile -t COMPREPLY < <(compgen -W "$options" -- "$current")
    return
  fi
  case ${COMP_WORDS[1]} in
    index | list | arrange | send)
      compopt -o filenames
      mapfile -t COMPREPLY < <(compgen -d -- "$current")
      ;;
    replay | show | check | checkdir)
      compopt -o filenames
      mapfile -t COMPREPLY < <(compgen -f -- "$current")
      ;;
  esac
}
complete -F _dcmbox dcmbox
