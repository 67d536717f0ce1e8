# How letters are carried: badly, as chance has it.

# Numbers from 0 to 99, drawn by the seed, a line each.
open_draws() {
  exec {draws}< <(exec awk -v seed="$seed" 'BEGIN { srand(seed); for (;;) print int(100 * rand()) }')
  drawer=$!
}

draw() { read -r drawn <&"$draws"; }

close_draws() {
  if [[ -n ${draws:-} ]]; then exec {draws}<&-; fi
  draws=
  wait "${drawer:-}" 2>/dev/null
}

# The letter that has waited longest is carried to its receiver. But of 100 some 15 are dropped, some 15 delayed, so that all others
# overtake them, and some 15 carried once more later on. Those to dead silos are dropped.
carry() {
  local letter=${mail[0]} receiver
  mail=("${mail[@]:1}")
  read -r _ _ receiver _ <<<"$letter"
  draw
  if ((drawn < 15)) || is_dead "$receiver"; then
    dropped=$((dropped + 1))
  elif ((drawn < 30)); then
    delayed=$((delayed + 1))
    mail+=("$letter")
  else
    if ((drawn < 45)); then
      repeated=$((repeated + 1))
      mail+=("$letter")
    fi
    carried=$((carried + 1))
    tell "$receiver" "$letter"
  fi
}

# Some letters, up to three; the next command doesn't wait for the others.
carry_some() {
  local some
  draw
  for ((some = drawn % 4; some > 0 && ${#mail[@]} > 0; some--)); do carry; done
}
