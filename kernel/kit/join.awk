# Puts the shortest sessions (the first file) into their rows (the second one).
BEGIN { FS = OFS = "\t" }
FILENAME ~ /shortest\.tsv$/ { shortest[$2] = $3 ": " $4; next }
$3 in shortest { $12 = shortest[$3] }
{ print }
