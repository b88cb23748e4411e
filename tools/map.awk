# awk -f map.awk SHAPE MAP: the picture of a class map. SHAPE has a line `cycles T columns rows gap`, then of each structure in order its name and bits.
# A structure has `rows` rows of pixels, from bit 0 down. A cell stands for the bits and cycles that lie in it, shared out where an edge cuts a cycle.
# A pixel is the group (0 to 5) of the most bit-cycles once what the pixels above left over is added. Behind the matrix a line `# STRUCTURE SHARE` each.
BEGIN { split("5 5 4 4 1 2 2 2 3 3 3 3 5", group) }
NR == FNR {
  if ($1 == "cycles") { cycles = $2; columns = $3; rows = $4; gap = $5; next }
  name[++structures] = $1; bits[$1] = $2
  distinct[$1] = $2 < rows ? $2 : rows
  base[$1] = (structures - 1) * rows
  next
}
NF == 5 {
  key = ((base[$1] + int($2 * distinct[$1] / bits[$1])) * 6 + group[substr($5, 2)]) * 1024
  a = $3 * columns / cycles; b = $4 * columns / cycles
  i = int(a); j = int(b)
  # how the share changes from one column to the next: from a on one bit more, from b on one less
  change[key + i] += 1 - (a - i); change[key + i + 1] += a - i
  change[key + j] -= 1 - (b - j); change[key + j + 1] -= b - j
}
END {
  for (s = 1; s <= structures; s++) {
    n = distinct[name[s]]; size = bits[name[s]]; aces = 0
    for (r = 0; r < n; r++) here[r] = ceiling(size * (r + 1) / n) - ceiling(size * r / n)
    for (r = 0; r < n; r++) for (g = 1; g < 6; g++) sum[r * 6 + g] = 0
    for (c = 0; c < columns; c++) {
      for (r = 0; r < n; r++) {
        rest = here[r]; key = (base[name[s]] + r) * 6144 + c
        for (g = 1; g < 6; g++) {
          if ((key + 1024 * g) in change) sum[r * 6 + g] += change[key + 1024 * g]
          rest -= sum[r * 6 + g]
        }
        sum[r * 6] = rest > 0.001 ? rest : 0
        aces += sum[r * 6]
      }
      for (g = 0; g < 6; g++) left[g] = 0
      for (r = 0; r < rows; r++) {
        if (n == 0) { cell[r * 1024 + c] = "nan"; continue }
        source = int(r * n / rows); best = 0
        for (g = 0; g < 6; g++) {
          left[g] += sum[source * 6 + g] / here[source]
          if (left[g] > left[best] + 0.001) best = g
        }
        left[best]--
        cell[r * 1024 + c] = best
      }
    }
    for (r = 0; r < rows + gap; r++) {
      line = ""
      for (c = 0; c < columns; c++) line = line (r < rows ? cell[r * 1024 + c] : "nan") " "
      print line
    }
    share[s] = size ? 100 * aces / size / columns : 0
  }
  for (s = 1; s <= structures; s++) printf("# %s %.4f\n", name[s], share[s])
}
function ceiling(x) { return x > int(x) ? int(x) + 1 : int(x) }
