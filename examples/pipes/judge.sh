# Whether all came right: the silos hold what `play` shows, and their dump is judged to be right.

# The silos of these words by address.
by_address() { printf '%s\n' "$@" | sort -V; }

# What is shown in a form for both, a whole directory and one silo after the other: the silos, what they hold, and of each how many hashes
# it serves, with how many entries. The pieces of a silo's ranges may be smaller than the ranges are.
holdings() {
  awk '
    $1 == "silo" { silo = $2 }
    $1 == "silo" && $3 != "dead" || $1 == "held" { print }
    $1 == "range" {
      owner = $3 ~ /@/ ? $3 : silo
      if ($(NF - 1) != "entries") { print owner, "does not serve", $2; next }
      split($2, part, "+")
      hashes[owner] += part[2]
      entries[owner] += $NF
    }
    END { for (owner in hashes) printf "%s serves %.0f hashes with %d entries\n", owner, hashes[owner], entries[owner] | "sort -V" }'
}

# What the silos hold.
held() {
  local silo
  for silo in $(by_address "${living[@]}"); do
    tell "$silo" show
    printf '%s\n' "${said[@]}"
  done | holdings
}

# What the same script comes to in one process, without a loss.
played() {
  { cat "$here/commands" && echo show; } | "$program" play --hashing stated | awk '$1 == "version" { shown = 1 } shown' | holdings
}

compare_with_play() { diff <(played) <(held); }

# All that is there in commas.
listed() { local IFS=, && echo "$*"; }

# The dump: what each silo says of itself, and a row for each that ever joined, as only who decides the changes knows it.
dump() {
  local silo nodes=() rows=()
  for silo in $(by_address "${living[@]}"); do
    tell "$silo" dump
    nodes+=("${said[0]}")
  done
  for silo in $(by_address "${!joined[@]}"); do
    rows+=("{\"dead\":${dead[$silo]:-0},\"joined\":${joined[$silo]},\"left\":${left[$silo]:-0},\"places\":[$(listed ${places[$silo]})],\"silo\":\"$silo\"}")
  done
  echo "{\"current\":$version,\"hashing\":\"stated\",\"nodes\":[$(listed "${nodes[@]}")],\"points\":30,\"rows\":[$(listed "${rows[@]}")]}"
}

judge_dump() { dump | "$program" check; }
