# The tables of two runs as one: those of the second file, each with the C library's column of the first file beside its own.
# awk -f join.awk FIRST SECOND    A table is known by the line above it, its rows by their first cell; the C library's column is the third.
BEGIN { FS = OFS = "|" }
/^[^|]/ { title = $0 }
NR == FNR { if (/^\|/) column[title, $2] = $4; next }
/^\|/ && (title, $2) in column { $4 = $4 OFS column[title, $2] }
{ print }
