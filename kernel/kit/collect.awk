# Prints a row of the results for each session of a file, from the player's rows (rows.tsv), and from what is known of those
# at which it has ended (ended.tsv). Those without a row weren't tried, for the reason `why`.
BEGIN { FS = OFS = "\t" }
FILENAME ~ /ended\.tsv$/ { ended[$1] = $2; next }
FILENAME ~ /rows\.tsv$/ {
	if (NF == 8 && $2 ~ /^(same|listed .*|differs|not tried)$/)
		row[$1] = $0
	next
}
/^# / { names[++count] = name = substr($0, 3) }
/ -> / { steps[name]++ }

function or_none(text) { return text == "" ? "-" : text }

END {
	for (i = 1; i <= count; i++) {
		name = names[i]
		if (split(row[name], field, FS) != 8) {
			print "session", part, name, "not tried", "-", 0, steps[name] + 0, "-", "-", "-", name in ended ? ended[name] : why, "-"
			continue
		}
		listed = "-"
		if (sub(/^listed /, "", field[2])) {
			listed = field[2]
			field[2] = "listed"
		}
		print "session", part, name, field[2], listed, field[3], field[4], field[5] ? field[5] : "-", or_none(field[6]), or_none(field[7]), or_none(field[8]), "-"
	}
}
