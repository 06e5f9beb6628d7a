# Prints the name of the first session of a file that no row (.tsv) names, and writes to `out` those behind it. Their lines
# keep their numbers.
BEGIN { FS = "\t" }
FILENAME ~ /\.tsv$/ { known[$1] = 1; next }
/^# / {
	name = substr($0, 3)
	if (found == "" && !(name in known))
		found = name
}
{ print (found == "" || name == found) ? "" : $0 >out }
END { if (found != "") print found }
