# Tables of what bench/main.c prints: in each line the best rate of each side over all passes, and the ratio of the proved side's time to C's.
BEGIN { FS = "\t" }

{
  line = $1 FS $2
  if (!(line in number)) {
    number[line] = ++lines
    table[lines] = $1
    name[lines] = $2
  }
  for (side = 3; side <= 5; side++) if ($side + 0 > best[number[line], side]) best[number[line], side] = $side + 0
}

function shown(rate,    text, tail) {
  if (rate < 10) return sprintf("%.1f", rate)
  for (text = sprintf("%.0f", rate); length(text) > 3; text = substr(text, 1, length(text) - 3)) tail = "," substr(text, length(text) - 2) tail
  return text tail
}

END {
  for (i = 1; i <= lines; i++) {
    if (table[i] != table[i - 1]) {
      printf "\n### %s\n\n", table[i]
      print "| | proved, a second | C by gcc, a second | ratio of times | C by clang, a second | ratio of times |\n|---|---|---|---|---|---|"
    }
    printf "| %s | %s |", name[i], shown(best[i, 3])
    for (side = 4; side <= 5; side++)
      if (best[i, side] > 0) printf " %s | %.2f |", shown(best[i, side]), best[i, side] / best[i, 3]
      else printf " - | - |"
    print ""
  }
}
