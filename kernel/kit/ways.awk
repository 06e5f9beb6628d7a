# For each way in which sessions of the results differ: how many do, the one that differs soonest, its line, and the way.
# With `select` only that way, of the player's rows.
BEGIN { FS = OFS = "\t" }
select != "" && $2 == "differs" && way($6, $7, $8) == select
select == "" && $1 == "session" && $4 == "differs" {
	found = way($9, $10, $11)
	if (!(found in count) || $6 + 0 < least[found]) {
		least[found] = $6 + 0
		where[found] = $3 OFS $8
	}
	count[found]++
}
END {
	for (found in count)
		print count[found], where[found], found
}
