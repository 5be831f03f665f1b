# Completion of rha for bash: source this file, or copy it as `rha` to ~/.local/share/bash-completion/completions.

# What may follow these words of a request line.
_rha_request() {
  case $#/$1/$3 in
    0/*) echo at history changed watermark durable ;;
    2/at/*) echo route prefix cover peer all ;;
    3/at/all | 4/at/prefix | 4/at/cover | 6/at/peer | 5/changed/*) echo after ;;
    7/history/*) echo skip ;;
  esac
}

_rha() {
  local line=${COMP_LINE:0:COMP_POINT} word=$2 offered=
  local -a words
  # bash parts words at colons too, as those of a timestamp
  read -ra words <<<"$line"
  [ "${line: -1}" = " " ] || unset "words[-1]"
  case ${words[-1]} in
    --collectors | --ring | --pages | --blocks | --collector | --batch | --mark | --listen | --http | --workers | --idle | --wait | --at | --peer | --within | --since | --until | --origin | --via)
      compopt +o default
      return
      ;;
    --format)
      mapfile -t COMPREPLY < <(compgen -W "lines bgpdump json" -- "$word")
      return
      ;;
  esac
  case ${words[1]}/$word in
    /*) offered="create load ask serve check info dump peers diff find --help --version" ;;
    create/-*) offered="--collectors --ring --pages --blocks --help" ;;
    load/-*) offered="--wait --collector --batch --mark --resume --lose-entries --strict --help" ;;
    serve/-*) offered="--wait --listen --workers --read-only --close-on-http --admin --http --idle --help" ;;
    ask/-*) offered="--wait --all --human --help" ;;
    check/-*) offered="--wait --help" ;;
    dump/-*) offered="--wait --connect --at --peer --format --help" ;;
    peers/-*) offered="--wait --connect --at --help" ;;
    diff/-*) offered="--wait --connect --within --help" ;;
    find/-*) offered="--wait --connect --exact --more --less --since --until --origin --via --help" ;;
    info/-*) offered="--wait --json --help" ;;
    ask/*) [ ${#words[@]} -lt 3 ] || offered=$(_rha_request "${words[@]:3}") ;;
  esac
  mapfile -t COMPREPLY < <(compgen -W "$offered" -- "$word")
}

# Where nothing is offered, a folder or a file follows.
complete -o default -F _rha rha
