# Prints the session `name` up to the step at its line `line`, and what belongs to it. How much is left out, `cut` says:
#   whole     nothing
#   needed    the processes that the step doesn't need: it needs those that it names, their parents and tracers, and those that
#             are named together with one of them by another step, its answer, or the rows behind it
#   changing  these, and the steps behind which no row is another one
/^# / { inside = substr($0, 3) == name }
/^$/ { inside = 0 }
!inside { next }
{
	is_row = /^= /
	is_turn = /^([0-9]+: )?turn [0-9]+ (compute|leave)/
	if (/ -> / && (was_row || !is_turn)) {
		if (NR > line && last > 0) {
			inside = 0
			next
		}
		groups++
	}
	if (is_row)
		changes[groups] = 1
	if (NR == line)
		last = groups
	was_row = is_row
	text[++lines] = $0
	group[lines] = groups + 0
	if (is_row && $2 == "lwp")
		owner[$3] = value_of("process")
	if (is_row && $2 == "process")
		owner[$3] = $3
}

function value_of(field, i, pair) {
	for (i = 4; i <= NF; i++)
		if (split($i, pair, "=") == 2 && pair[1] == field)
			return pair[2]
	return ""
}

# Sets words[] to the processes that a line names, and returns how many they are.
function named(of, count, found, i, pair, number) {
	sub(/^[0-9]+: /, "", of)
	count = split(of, token, " ")
	for (i = 1; i <= count; i++) {
		number = token[i]
		if (split(number, pair, "=") == 2 && pair[1] ~ /^(parent|tracer|process|lwp)$/)
			number = pair[2]
		if (number in owner && owner[number] != "")
			words[++found] = owner[number]
	}
	return found + 0
}

# The process that a row is of.
function process_of(row, of) {
	split(row, of, " ")
	return of[2] == "gone" ? owner[of[4]] : owner[of[3]]
}

function need(process) {
	if (process in needed)
		return 0
	return needed[process] = 1
}

# Whether more processes are needed since the group of this line is.
function spread(i, changed, count, j) {
	if (text[i] ~ /^= / && group[i] != last && !(process_of(text[i]) in needed))
		return 0
	count = named(text[i])
	for (j = 1; j <= count; j++)
		changed += need(words[j])
	return changed
}

function mark_groups(i, j, count) {
	for (i = 1; i <= lines; i++) {
		if (cut == "changing" && !(group[i] in changes))
			continue
		count = named(text[i])
		for (j = 1; j <= count; j++)
			if (words[j] in needed)
				kept[group[i]] = 1
	}
}

END {
	kept[last] = kept[0] = 1
	do {
		changed = 0
		mark_groups()
		for (i = 1; i <= lines; i++)
			if (group[i] in kept)
				changed += spread(i)
	} while (changed)
	for (i = 1; i <= lines; i++)
		if (group[i] <= last && (cut == "whole" || (group[i] in kept && (text[i] !~ /^= / || process_of(text[i]) in needed))))
			print text[i]
	print ""
}
