# Lines of um replay of what grgsm_decode -p prints: grgsm_decode -p .. | awk -f examples/other/grgsm.awk | um replay
function flush(i) {
  for (i = 1; i <= 4 && first != ""; i++)
    print i in b ? "n 000" substr(b[i], 1, 57) "1" t "1" substr(b[i], 58) "000" : "lost"
  delete b
}
BEGIN {
  FS = "[ :]+"; t = sprintf("%026d", 0)
  n = split(firsts ? firsts : "2 6 12 16 22 26 32 36 42 46", f, " ")
  for (i in f) for (j = 0; j < 4; j++) at[f[i] + j] = j + 1
}
$1 % 51 in at { k = at[$1 % 51]; if ($1 - k + 1 != first) { flush(); first = $1 - k + 1 } b[k] = $3 }
END { flush() }
