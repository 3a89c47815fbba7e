# Explains what is wrong with a refused line, and marks the column if shown is not empty. Standard input is the line. The environment has
# shown, number and reason from the program's output, called (the command), own (the forms of its lines), and others (the forms of all
# commands, each after the command's name). In a form, | separates alternatives, and .. means more words like the last.

# the position in a word of the first character that is not one of these, or 0
function stranger(word, digits,   i) {
  for (i = 1; i <= length(word); i++) if (!index(digits, substr(word, i, 1))) return i
  return 0
}

function is_one_of(word, choice,   part, i, n) {
  n = split(choice, part, "|")
  for (i = 1; i <= n; i++) if (word == part[i]) return 1
  return 0
}

# whether a word of a form is a keyword
function is_fixed(i, type) { return i == 1 || type !~ /[A-Z.]/ }

# splits a form into wanted[] and returns the number of words; a final .. is repeated up to the length of the line
function fields(form,   n) {
  n = split(form, wanted, " ")
  if (wanted[n] != "..") return n
  for (n--; n < count; n++) wanted[n + 1] = wanted[n]
  return n
}

# how many words of the line match the form before the first that does not, and a half more if the line matches the whole form
function fit(form,   i, n) {
  n = fields(form)
  for (i = 1; i <= n && i <= count; i++) if (is_fixed(i, wanted[i]) && !is_one_of(word[i], wanted[i])) return i - 1
  return n == count ? count + 0.5 : i - 1
}

# prints the fault and, if the column is above 0, the line with a mark under that column; then exits
function tell(fault, column,   from, shown, margin) {
  printf "%s: line %d was refused (%s): %s\n", called, number, reason, fault
  if (column > 0 && ENVIRON["shown"]) {
    from = column > 70 ? column - 50 : 1
    shown = substr(line, from, 100)
    gsub(/[^ -~]/, "?", shown)
    margin = from > 1 ? "  ..." : "  "
    print margin shown (length(line) >= from + 100 ? "..." : "")
    gsub(/./, " ", shown)
    gsub(/\./, " ", margin)
    print substr(margin shown, 1, length(margin) + column - from) "^"
  }
  is_told = 1
  exit
}

function column_of(i,   k, column) {
  column = 1
  for (k = 1; k < i; k++) column += length(word[k]) + 1
  return column
}

function quoted(text) {
  gsub(/[^ -~]/, "?", text)
  return "'" (length(text) > 30 ? substr(text, 1, 27) "..." : text) "'"
}

function tell_of_spaces(   at) {
  if (line ~ /^\357\273\277/) tell("a byte order mark comes before the first word", 1)
  if (line ~ /^(\376\377|\377\376)/ || line ~ /[\001-\010\016-\037].*[\001-\010\016-\037]/)
    tell("this is not text: is it compressed, binary or UTF-16?", 1)
  if (line ~ /\r$/) tell("the line ends in CR LF; tr -d '\\r' removes the CR", length(line))
  if (at = index(line, "\t")) tell("words are separated by one space, but this is a tab", at)
  if (line ~ /^ /) tell("there is a space before the first word", 1)
  if (at = index(line, "  ")) tell("words are separated by one space, but here are two", at + 1)
  if (line ~ / $/) tell("there is a space after the last word", length(line))
}

# the command whose lines start with the first word, if any
function reader_of(   part, form, i, n) {
  n = split(ENVIRON["others"], part, "\n")
  for (i = 1; i <= n; i++) {
    form = part[i]
    sub(/^[a-z]+ /, "", form)
    if (fit(form) >= 1) return substr(part[i], 1, index(part[i], " ") - 1)
  }
  return ""
}

# the first words of n forms, each once; the forms with the most alternatives come first
function first_words(part, n,   choice, is_listed, list, most, i, k) {
  for (most = 9; most; most--) for (i = 1; i <= n; i++) {
    fields(part[i])
    if (split(wanted[1], choice, "|") != most) continue
    for (k = 1; k <= most; k++) if (!is_listed[choice[k]]++) list = list (list ? ", " : "") choice[k]
  }
  return list
}

# the reason `word`: the line matches no form of the command
function tell_of_words(   part, i, n, most, best, other) {
  tell_of_spaces()
  n = split(ENVIRON["own"], part, "\n")
  for (i = 1; i <= n; i++) {
    if (fit(part[i]) > most) {
      most = fit(part[i])
      best = part[i]
    }
  }
  if (!best) {
    other = reader_of()
    if (word[1] == "refused" && word[2] ~ /^[0-9]+$/)
      tell("the command before this one refused line " word[2] " of its input (" word[3] ")", 1)
    if (other) tell("um " other " reads such lines, but " called " does not", 1)
    tell(quoted(word[1]) " does not start a line of " called "; lines start with " first_words(part, n), 1)
  }
  if (word[1] == "net" && word[2] == "open")
    tell("the mobile opens SAPI 0" (called == "um link" ? ": mob open HEX" : "") "; either end opens SAPI 3: net3 open", column_of(2))
  n = fields(best)
  if (most < count && most < n) tell(quoted(word[most + 1]) " does not belong here; the form is " best, column_of(most + 1))
  tell("the line has " count " words, but the form " best " has " n, 1)
}

# what is wrong with a word of digits, or nothing; sets `at` to the position
function fault_of(word, type,   n) {
  at = 1
  n = type
  gsub(/[^0-9]/, "", n)
  n += 0
  if (type ~ /^[TSN]$/) return word ~ /^[0-7]$/ ? "" : type " is one digit from 0 to 7"
  if (type ~ /^[CPMF]$/) return word ~ /^[01]$/ ? "" : type " is 0 or 1"
  if (type == "PLACE") {
    if (word !~ /^(0|[1-9][0-9]*)$/ || word > 591) return "a place is a number from 0 to 591"
    return word in seen ? "this place is given twice" : ""
  }
  if (type ~ /^HEX/) {
    if (type == "HEX" && word == "-") return reason == "length" ? "this frame has at least one octet" : ""
    if (at = stranger(word, "0123456789abcdefABCDEF"))
      return type " has hexadecimal digits only" (word ~ /^0[xX]/ ? ", no 0x" : type == "HEX" ? ", or is - for no octets" : "")
  } else if (at = stranger(word, "01")) return type " has the digits 0 and 1 only"
  at = 1
  if (n && length(word) != n) return type " has " n " digits, but these are " length(word)
  if (type == "HEX" && (word == "" || length(word) % 2))
    return "each octet has two digits, but these are " length(word) "; - means no octets"
  if (type == "HEX" && reason == "length") return "a frame has at most 20 octets here, but these are " length(word) / 2
  if (reason != "soft") return ""
  while (at < n && substr(word, at, 2) != "80") at += 2
  return at < n ? "80 is -128; soft bits are from -127 to 127" : ""
}

# the other reasons: the line matches a form, but a word is wrong
function tell_of_values(   part, fault, i, n) {
  n = split(ENVIRON["own"], part, "\n")
  for (i = 1; i < n && fit(part[i]) != count + 0.5; i++);
  fields(part[i])
  for (i = 2; i <= count; i++) {
    if (is_fixed(i, wanted[i])) continue
    fault = fault_of(word[i], wanted[i])
    if (fault && substr(word[i], at, 1) == "\r") tell_of_spaces()
    if (fault) tell(fault, column_of(i) + at - 1)
    seen[word[i]]
  }
}

{ line = $0 }

END {
  number = ENVIRON["number"]
  reason = ENVIRON["reason"]
  called = ENVIRON["called"]
  count = split(line, word, / /)
  if (is_told) exit
  if (reason == "order" && NR == 0) tell("the input ends inside a block, which is four lines n, N or lost", 0)
  if (reason == "order") tell("this line is inside a block, which is four lines n, N or lost", 1)
  if (reason == "long") tell("it has more than 4,096 octets; is this text?", 1)
  if (reason == "word") tell_of_words()
  tell_of_values()
}
