# Prints the results as a table for people.
BEGIN { FS = "\t"; count = split("same,listed,differs,not tried", verdicts, ",") }
/^# (tracehost-kit|kernel|machine|compiler|date|user)/ { print substr($0, 3) }
$1 == "session" || $1 == "case" {
	if (!($2 in all))
		parts[++part_count] = $2
	all[$2]++
	number[$2, $4]++
	steps += $6
	if ($4 == "not tried")
		left[$2 ": " $11]++
	if ($1 == "case" && $4 == "differs")
		cases[++case_count] = $3 ": " $11 " (model: " $10 ")"
	if ($1 == "case" && $4 == "listed")
		cases_listed = cases_listed " " $5
	if ($1 == "session" && $4 == "differs") {
		found = way($9, $10, $11)
		ways[found]++
		if ($12 != "-")
			shortest[found] = $3 ", " $12
	}
}
$1 == "difference" { differences[++difference_count] = sprintf("%-40s %7d %7d", $2, $3, $4) }

function heading(text) { printf "\n%s\n", text }

# Prints the way that most sessions differ in, and forgets it.
function print_most(found, most) {
	most = ""
	for (found in ways)
		if (most == "" || ways[found] > ways[most] || (ways[found] == ways[most] && found < most))
			most = found
	printf "%d: %s\n", ways[most], most
	if (most in shortest) {
		gsub(/ ; /, "\n\t", shortest[most])
		sub(/: /, ":\n\t", shortest[most])
		printf "    the shortest: %s\n", shortest[most]
	}
	delete ways[most]
}

END {
	heading(sprintf("%-16s %7s %9s %9s %9s %9s", "part", "number", "same", "listed", "differs", "not tried"))
	for (i = 1; i <= part_count; i++) {
		printf "%-16s %7d", parts[i], all[parts[i]]
		for (j = 1; j <= count; j++)
			printf " %9d", number[parts[i], verdicts[j]]
		print ""
	}
	printf "%d steps of sessions compared\n", steps
	if (difference_count)
		heading(sprintf("%-40s %7s %7s", "listed difference", "differs", "met"))
	for (i = 1; i <= difference_count; i++)
		print differences[i]
	if (cases_listed)
		printf "\nlisted cases:%s\n", cases_listed
	for (found in ways)
		way_count++
	if (way_count)
		heading("sessions that differ otherwise, by way")
	while (way_count-- > 0)
		print_most()
	if (case_count)
		heading("cases that differ otherwise")
	for (i = 1; i <= case_count; i++)
		print cases[i]
	for (reason in left)
		left_count++
	if (left_count)
		heading("not tried")
	for (reason in left)
		printf "%7d %s\n", left[reason], reason
}
