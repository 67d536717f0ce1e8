# How to speak with the process of a silo: start it, tell it a line and hear what it answers, end it.

pipes=$(mktemp -d) || exit 1

# Starts a silo's process between two named pipes, and takes the other ends. The process must not keep the ends of others open: it would
# not be noticed there when this side closes them.
start() {
  local end
  mkfifo "$pipes/$1.in" "$pipes/$1.out" || fail "no named pipes can be made"
  (
    for end in "${to[@]}" "${from[@]}" "$draws"; do exec {end}>&-; done
    trap - PIPE
    exec "$program" silo "$1" --hashing stated
  ) <"$pipes/$1.in" >"$pipes/$1.out" &
  process[$1]=$!
  exec {end}>"$pipes/$1.in"
  to[$1]=$end
  exec {end}<"$pipes/$1.out"
  from[$1]=$end
  living+=("$1")
}

# Tells a silo a line, and hears all that it answers: letters are put into the mail, all else into `said`. How many letters there are isn't
# known before, but lines are answered in their order: when the ping behind the line is answered, the line was. A silo that the line told
# of its death doesn't read the ping.
tell() {
  local silo=$1 line=$2 answer
  said=()
  printf '%s\nping heard\n' "$line" >&"${to[$silo]}" 2>/dev/null
  while IFS= read -r -t 60 answer <&"${from[$silo]}"; do
    case $answer in
      'pong heard') return ;;
      'letter '*) mail+=("$answer") written=$((written + 1)) ;;
      'fault '*) fail "$silo can't read: $line" ;;
      dead)
        bury "$silo"
        return ;;
      *) said+=("$answer") ;;
    esac
  done
  fail "$silo doesn't answer: $line"
}

is_dead() { [[ -z ${process[$1]:-} ]]; }

# A silo's process ends at the end of what it reads, and when it is told that it is dead; then with status 0.
stop() {
  local status end=${to[$1]}
  exec {end}>&-
  end=${from[$1]}
  exec {end}<&-
  wait "${process[$1]}"
  status=$?
  unset "process[$1]" "to[$1]" "from[$1]"
  rm -f "$pipes/$1.in" "$pipes/$1.out"
  return "$status"
}

# A silo has said that it is dead, by the change decided last.
bury() {
  local silo rest=()
  stop "$1" || fail "$1 is dead, and its process ends with another status than 0"
  dead[$1]=$version
  for silo in "${living[@]}"; do
    if [[ $silo != "$1" ]]; then rest+=("$silo"); fi
  done
  living=("${rest[@]}")
}

# Processes that go on when the run ends early may not end by themselves.
kill_all() {
  if ((${#process[@]} > 0)); then kill "${process[@]}" 2>/dev/null; fi
}

# Ends all processes, and leaves nothing behind.
stop_all() {
  local silo failed=0
  for silo in "${!process[@]}"; do stop "$silo" || failed=1; done
  close_draws
  rm -rf "$pipes"
  return "$failed"
}
