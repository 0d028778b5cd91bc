# Draws the rows of growth in the table of bench/run: for each of them a field with the sizes from left to right and the
# microseconds a packet upwards, both by powers. Set by -v: both, 1 where two programs were run.

function text(x, y, anchor, size, colour, words) {
  printf "<text x=\"%.1f\" y=\"%.1f\" text-anchor=\"%s\" font-size=\"%d\" fill=\"%s\">%s</text>\n", x, y, anchor, size,
    colour, words
}

function stroke(x1, y1, x2, y2, colour) {
  printf "<line x1=\"%.1f\" y1=\"%.1f\" x2=\"%.1f\" y2=\"%.1f\" stroke=\"%s\"/>\n", x1, y1, x2, y2, colour
}

function log10(value) { return log(value) / log(10) }

function grouped(number) { return number < 1000 ? number : sprintf("%d,%03d", int(number / 1000), number % 1000) }

function height_of(time) { return bottom - (log10(time) - low) / (high - low) * tall }

function place_of(group, size) {
  return left + wide * (0.08 + 0.84 * log(size / least[group]) / log(most[group] / least[group]))
}

# The points of a program, joined, each with its value.
function curve(group, program, colour, dash, shift,    i, x, y, points, marks) {
  points = marks = ""
  for (i = 1; i <= count[group]; i++) {
    x = place_of(group, size[group, i])
    y = height_of(time[group, i, program])
    points = points sprintf("%.1f,%.1f ", x, y)
    marks = marks sprintf("<circle cx=\"%.1f\" cy=\"%.1f\" r=\"3\" fill=\"%s\"/>\n", x, y, colour)
    value[i] = sprintf(time[group, i, program] < 9.95 ? "%.1f" : "%.0f", time[group, i, program])
  }
  printf "<polyline points=\"%s\" fill=\"none\" stroke=\"%s\" stroke-width=\"2\"%s/>\n%s", points, colour, dash, marks
  for (i = 1; i <= count[group]; i++)
    text(place_of(group, size[group, i]), height_of(time[group, i, program]) + shift, "middle", 11, colour, value[i])
}

BEGIN {
  FS = "\t"
  title["journal"] = "places of a journal"
  title["ticks"] = "places, ticks between, 7 held"
  title["flight"] = "packets in flight"
  title["peers"] = "peers"
  title["rates"] = "rates, 256 peers"
  title["routes"] = "routes"
  title["tenants"] = "tenants"
  mine = "#1b5e9b"
  others = "#b4491f"
}

$1 in title {
  if (!count[$1]++) group[++groups] = $1
  i = count[$1]
  size[$1, i] = $3
  if (i == 1 || $3 < least[$1]) least[$1] = $3
  if ($3 > most[$1]) most[$1] = $3
  for (p = 1; p <= (both ? 2 : 1); p++) {
    ms = $(3 + 2 * p)
    time[$1, i, p] = (ms > 0 ? ms : 0.5) * 1000 / $4
    if (!fastest || time[$1, i, p] < fastest) fastest = time[$1, i, p]
    if (time[$1, i, p] > slowest) slowest = time[$1, i, p]
  }
}

END {
  low = int(log10(fastest) + 9) - 9
  high = int(log10(slowest) + 10) - 9
  columns = 4
  wide = 190
  tall = 150
  width = columns * (wide + 30) + 40
  height = 56 + int((groups + columns - 1) / columns) * (tall + 66)
  printf "<svg xmlns=\"http://www.w3.org/2000/svg\" viewBox=\"0 0 %d %d\" width=\"%d\" height=\"%d\" font-family=\"sans-serif\">\n",
    width, height, width, height
  printf "<rect width=\"%d\" height=\"%d\" fill=\"#ffffff\"/>\n", width, height
  text(20, 24, "start", 14, "#222222", "Microseconds of processor time for a packet that is forwarded and fulfilled")
  if (both) {
    text(width - 20, 17, "end", 12, mine, "whole line: the program")
    text(width - 20, 33, "end", 12, others, "broken line: the other")
  }
  for (g = 1; g <= groups; g++) {
    name = group[g]
    left = 50 + (g - 1) % columns * (wide + 30)
    bottom = 72 + int((g - 1) / columns) * (tall + 66) + tall
    text(left + wide / 2, bottom - tall - 10, "middle", 12, "#222222", title[name])
    for (power = low; power <= high; power++)
      for (k = 1; k <= (power < high ? 5 : 1); k += k == 1 ? 1 : 3) {
        y = height_of(k * 10 ^ power)
        stroke(left, y, left + wide, y, k == 1 ? "#bbbbbb" : "#eeeeee")
        if ((g - 1) % columns == 0 || k == 1) text(left - 5, y + 4, "end", 10, "#666666", k * 10 ^ power)
      }
    for (i = 1; i <= count[name]; i++) {
      x = place_of(name, size[name, i])
      stroke(x, bottom, x, bottom + 4, "#666666")
      text(x, bottom + 17, "middle", 11, "#222222", grouped(size[name, i]))
    }
    if (both) curve(name, 2, others, " stroke-dasharray=\"5 4\"", -8)
    curve(name, 1, mine, "", both ? 16 : -8)
  }
  print "</svg>"
}
