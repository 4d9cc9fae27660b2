# The pages of levels.chart, straight from its cards: what a program writes that knows this one report.
# It checks no card. Forms have 66 lines; headings stand on the lines 3 to 5, and no line begins a page's lines behind line 60.

function begin_page() {
  printf "\n\nSALES BY DEPARTMENT, CUSTOMER AND ITEM\n\nDEPT  CUST  ITEM                            QUANTITY         AMOUNT\n"
  line = 5
  turns = 0
}

function end_page() {
  while (line < 66) { print ""; line++ }
  printf "\f"
}

# A line of the report, some lines below the one before it.
function place(text, spacing) {
  if (turns || line >= 60) {
    if (begun) end_page()
    begin_page()
    begun = 1
  }
  while (spacing > 1) { print ""; line++; spacing-- }
  print text
  line++
}

# Hundredths with their point, in a width.
function money(hundredths, width,   whole) {
  whole = int(hundredths / 100)
  return sprintf("%" (width - 3) "s.%02d", whole ? whole : "", hundredths % 100)
}

function item_total() {
  place(sprintf("%19s%-29s%4d         %s", "", "ITEM TOTAL", quantity[1], money(amount[1], 6)), 1)
  quantity[2] += quantity[1]; amount[2] += amount[1]
  quantity[1] = amount[1] = 0
}

function customer_total() {
  item_total()
  place(sprintf("%19s%-27s%6d        %s", "", "CUSTOMER TOTAL", quantity[2], money(amount[2], 7)), 2)
  quantity[3] += quantity[2]; amount[3] += amount[2]
  quantity[2] = amount[2] = 0
}

function department_total() {
  customer_total()
  place(sprintf("%-19s%-26s%7d       %s", department, "DEPARTMENT TOTAL", quantity[3], money(amount[3], 8)), 2)
  turns = 1
  quantity[4] += quantity[3]; amount[4] += amount[3]
  quantity[3] = amount[3] = 0
}

BEGIN { turns = 1 }

{
  if (NR > 1) {
    if (substr($0, 1, 3) != department) department_total()
    else if (substr($0, 4, 3) != customer) customer_total()
    else if (substr($0, 7, 3) != item) item_total()
  }
  shown = substr($0, 1, 3) != department || NR == 1 ? 3 : substr($0, 4, 3) != customer ? 2 : substr($0, 7, 3) != item
  department = substr($0, 1, 3)
  customer = substr($0, 4, 3)
  item = substr($0, 7, 3)
  count = substr($0, 10, 2) + 0
  worth = substr($0, 12, 5) + 0
  place(sprintf("%-6s%-6s%-38s%2d         %s", shown == 3 ? department : "", shown >= 2 ? customer : "", shown ? item : "", count, money(worth, 6)), 1)
  quantity[1] += count; amount[1] += worth
}

END {
  if (NR > 0) {
    department_total()
    place(sprintf("%19s%-25s%8d      %s", "", "GRAND TOTAL", quantity[4], money(amount[4], 9)), 3)
    end_page()
  }
}
