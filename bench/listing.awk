# The pages of listing.chart, straight from its cards: what a program writes that knows this one report.
# It checks no card. Forms have 66 lines; a page begins on line 4, and none begins a line behind line 60.

function begin_page() {
  printf "\n\n\n"
  line = 3
}

function end_page() {
  while (line < 66) { print ""; line++ }
  printf "\f"
}

BEGIN { line = 60 }

{
  if (line >= 60) {
    if (NR > 1) end_page()
    begin_page()
  }
  text = sprintf("%-6s  %s", substr($0, 1, 6), substr($0, 8, 6))
  sub(/ +$/, "", text)
  print text
  line++
}

END { if (NR > 0) end_page() }
