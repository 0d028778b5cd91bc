# Prints a part of the table of bench/run, whose lines have, between tabs: group, name, size, count, and for each program
# milliseconds and KB.
#
# Set by -v: what   plain, growth, each or setup (the heading for such rows), last (the last row), ratio (of the rows of the
#                   last one's group, the most time for a packet to the least)
#            both   1 where two programs were run
#            markdown

function line(    i, text) {
  if (markdown) {
    text = "|"
    for (i = 1; i <= cells; i++) text = text " " cell[i] " |"
  } else {
    text = sprintf("%-34s", cell[1])
    for (i = 2; i <= cells; i++) text = text sprintf(" %11s", cell[i])
    sub(/ +$/, "", text)
  }
  print text
}

function put(text) { cell[++cells] = text }

function two(first, second) {
  put(first)
  if (both) put(second)
}

function rule(    i, text) {
  if (!markdown) return
  text = "|---|"
  for (i = 2; i <= cells; i++) text = text "---:|"
  print text
}

function heading(kind,    unit) {
  unit = kind == "each" ? "ms each" : kind == "setup" ? "ms" : "us/packet"
  put(kind == "each" ? "Commands" : kind == "setup" ? "Setups, read" : kind == "growth" ? "As it grows" : "Packets")
  put("count")
  two(unit, "other " unit)
  if (both) put("other/this")
  if (kind == "plain" || kind == "growth") two("packets/s", "other /s")
  two("MB", "other MB")
  line()
  rule()
}

# What a packet or a command took: microseconds, or for other rows milliseconds.
function unit_time(group, ms, count) { return group == "each" || group == "setup" ? ms / count : 1000 * ms / count }

function shown(time) { return sprintf(time < 10 ? "%.2f" : time < 100 ? "%.1f" : "%.0f", time) }

function ratio(most, least) { return least > 0 ? sprintf("%.2f", most / least) : "-" }

function rate(time) { return time > 0 ? sprintf("%.0f", 1000000 / time) : "-" }

function memory(kb) { return kb == "" ? "-" : sprintf("%.1f", kb / 1024) }

function row(    mine, other) {
  mine = unit_time($1, $5, $4)
  other = unit_time($1, $7, $4)
  put($2)
  put($4)
  two(shown(mine), shown(other))
  if (both) put(ratio(other, mine))
  if ($1 != "each" && $1 != "setup") two(rate(mine), rate(other))
  two(memory($6), memory($8))
  line()
}

function growth(    i, k, time, least, most) {
  put("  most to least")
  put("")
  for (k = 5; k <= (both ? 7 : 5); k += 2) {
    least = most = -1
    for (i = 1; i <= NR; i++) {
      split(kept[i], part, "\t")
      if (part[1] != $1) continue
      time = unit_time(part[1], part[k], part[4])
      if (least < 0 || time < least) least = time
      if (time > most) most = time
    }
    put(ratio(most, least))
  }
  if (markdown) while (cells < (both ? 9 : 5)) put("")
  line()
}

BEGIN { FS = "\t" }

{ kept[NR] = $0 }

END {
  $0 = kept[NR]
  if (what == "last") row()
  else if (what == "ratio") growth()
  else heading(what)
}
