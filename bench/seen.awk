# Compares what was printed with what a script wants: awk -f seen.awk WANT PRINTED. Says what differs, and then ends with 1.
# A line counts by its second word, a reply as `fulfilled` or by the code of the Reject.

function code(text) { return (text ~ /^46/ ? "F" : text ~ /^54/ ? "T" : "R") substr(text, 4, 1) substr(text, 6, 1) }

NR == FNR {
  if (FNR > 1) wanted[$1] = $2
  next
}

{
  word = $2
  if (word == "reply") word = substr($3, 1, 2) == "0d" ? "fulfilled" : code(substr($3, 5, 6))
  printed[word]++
}

END {
  for (word in printed) if (!(word in wanted)) wanted[word] = 0
  for (word in wanted) {
    if (printed[word] + 0 == wanted[word]) continue
    printf "%s: %d lines, and %d were to come\n", word, printed[word], wanted[word]
    differs = 1
  }
  exit differs
}
