#!/bin/sh
# Plays the kit's sessions and cases on this machine, and writes results-SYSTEM-RELEASE.tsv beside this file. README says
# what they are, and what the file has.
#
# usage: [VARIABLE=VALUE ..] sh run.sh
#   PARTS         shared shared-users freebsd freebsd-users cases: what to run, all of it unless it is set
#   CC, LIBRARIES, RUN   compiler of the cases, their libraries, and what runs them (nothing, on FreeBSD)
#   PLAYER_CC     compiler of the player: cc if RUN is set, else CC
#   SETTINGS      change: sets kern.kill_on_debugger_exit to what sessions ask for, and back at the end; else those of
#                 another value aren't tried
#   MINUTES       after which nothing more is begun (28)
#   CASE_SECONDS  the time of a case (20)
#
# status: 0 all that was asked for was run, and nothing differs but what is listed; 1 something else differs; 2 a variable is
# wrong; 3 not all could be run, or the results couldn't be written
set -u
LC_ALL=C
export LC_ALL
unset CDPATH MAKEFLAGS MFLAGS GNUMAKEFLAGS MAKELEVEL
umask 022
{ : >&2; } 2>/dev/null || exec 2>/dev/null
exec 3>&2 # in functions whose standard error goes to a file too
case $0 in */*) cd "${0%/*}" || exit 3 ;; esac

: "${CC:=cc}" "${RUN:=}" "${SETTINGS:=}" "${MINUTES:=28}" "${CASE_SECONDS:=20}" "${PARTS:=shared shared-users freebsd freebsd-users cases}"
if [ -n "$RUN" ]; then
	: "${PLAYER_CC:=cc}" "${LIBRARIES:=}"
else
	: "${PLAYER_CC:=$CC}" "${LIBRARIES:=-latf-c -lpthread -lutil}"
fi
system=$(uname -s)
results=results-$(printf '%s-%s' "$system" "$(uname -r)" | tr -c 'A-Za-z0-9._-' _).tsv
tab=$(printf '\t')
not_asked='not among the PARTS'
running=
kills_before=

# ---- the end

restore_setting() {
	[ -z "$kills_before" ] || sysctl kern.kill_on_debugger_exit="$kills_before" >/dev/null
	kills_before=
}

fault() {
	printf 'run.sh: %s\n' "$*" >&3
	restore_setting
	rm -f "$results.part"
	exit 3
}

stopped() {
	trap '' HUP INT QUIT PIPE TERM
	if [ -n "$running" ]; then
		kill -TERM "$running" 2>/dev/null
		wait "$running"
	fi
	fault 'ended by a signal: no results are written'
}

# ---- what the parts share

wrong() {
	printf 'run.sh: %s\n' "$*" >&2
	exit 2
}

check_variables() {
	part=
	for part in $PARTS; do
		case $part in
		shared | shared-users | freebsd | freebsd-users | cases) ;;
		*) wrong "PARTS: there is no part $part" ;;
		esac
	done
	[ -n "${part-}" ] || wrong 'PARTS: no part'
	case $SETTINGS in '' | change) ;; *) wrong "SETTINGS: change, or nothing, not $SETTINGS" ;; esac
	for number in "$MINUTES" "$CASE_SECONDS"; do
		case $number in
		'' | 0* | *[!0-9]* | ??????*) wrong "MINUTES and CASE_SECONDS are numbers, not $number" ;;
		esac
	done
}

is_part() {
	case " $PARTS " in *" $1 "*) return 0 ;; esac
	return 1
}

# Runs a command for at most so many seconds, and not beyond the time of all. In the background, so that the shell meets
# signals at once.
limited() {
	rest=$((end - $(date +%s)))
	[ "$rest" -gt "$1" ] && rest=$1
	[ "$rest" -gt 0 ] || return 124
	shift
	"$limited" "$rest" "$@" 3>&- &
	running=$!
	wait "$running"
	code=$?
	running=
	return "$code"
}

time_is_left() {
	[ "$(date +%s)" -lt "$end" ]
}

# What a cell of a table takes: printable characters, and not too many.
cell() {
	tr '\t' ' ' | tr -cd '\040-\176\n' | cut -c 1-300
}

# A file's first line that tells what is wrong, or its last one.
first_error() {
	awk '/error|undefined|fatal/ && !found { found = $0 } { last = $0 } END { print found ? found : last }' "$1" | cell
}

build_limited() {
	mkdir -p work || fault 'this folder takes no files'
	# shellcheck disable=SC2086 # a compiler may be several words
	$PLAYER_CC -O2 -o work/limited limited.c >work/limited.out 2>&1 || fault "no compiler: $PLAYER_CC: $(first_error work/limited.out)"
	limited=$PWD/work/limited
	"$limited" 5 true || fault 'programs that are built here cannot be run'
}

setting() {
	value=$(sysctl -n "$1" 2>/dev/null) && printf '# setting\t%s\t%s\n' "$1" "$value"
}

processors() {
	getconf _NPROCESSORS_ONLN 2>/dev/null || getconf NPROCESSORS_ONLN 2>/dev/null || echo '?'
}

write_head() {
	printf '# tracehost-kit\t%s\n' "$(tr ' ' '\t' <VERSION)"
	printf '# kernel\t%s\t%s\t%s\n' "$system" "$(uname -r)" "$(uname -v | cell)"
	printf '# machine\t%s\t%s processors\n' "$(uname -m)" "$(processors)"
	printf '# compiler\t%s\t%s\n' "$PLAYER_CC" "$($PLAYER_CC --version 2>&1 | head -n 1 | cell)"
	printf '# date\t%s\n' "$(date -u +%Y-%m-%dT%H:%M:%SZ)"
	printf '# user\t%s\n' "$(id -u)"
	for name in kern.kill_on_debugger_exit security.bsd.see_other_uids security.bsd.unprivileged_proc_debug \
		security.bsd.conservative_signals security.jail.jailed kernel.yama.ptrace_scope; do
		setting $name
	done
	printf '# cases run by\t%s\n' "${RUN:-$system}"
	printf '# parts\t%s\n' "$PARTS"
}

# ---- sessions

build_player() {
	why_no_player=
	rm -rf work/player
	cp -R player work/player || fault 'the player cannot be copied'
	(cd work/player && exec "${MAKE:=make}" CC="$PLAYER_CC") >work/player.out 2>&1 && return
	why_no_player="the player cannot be built: $(first_error work/player.out)"
	printf '%s\n' "$why_no_player" >&2
}

# Sets what the sessions of a file ask for, if it may be changed.
use_setting() {
	[ "$system" = FreeBSD ] && [ -n "$SETTINGS" ] || return 0
	[ -n "$kills_before" ] || kills_before=$(sysctl -n kern.kill_on_debugger_exit)
	wanted=1
	! grep -q '^kill_on_debugger_exit: 0$' "$1" || wanted=0
	sysctl kern.kill_on_debugger_exit=$wanted >/dev/null
}

# Why a run of the player has ended early.
why_ended() {
	case $1 in
	124) printf 'no end in time' ;;
	*) printf 'status %s: %s' "$1" "$(tail -n 1 "$2" | cell)" ;;
	esac
}

# The lines of a file without a torn last one.
whole_lines() {
	if [ -n "$(tail -c 1 "$1")" ]; then sed '$d' "$1"; else cat "$1"; fi
}

# Plays a file of sessions. If the player ends before the last of them, it goes on behind the one that it ended at.
play_file() {
	name=${1##*/}
	played=work/played/${name%.txt}
	rm -rf "$played"
	mkdir -p "$played" || fault 'this folder takes no files'
	cp "$1" "$played/rest.txt" || fault 'this folder takes no more files'
	: >"$played/ended.tsv"
	: >"$played/rows.tsv"
	tries=0
	while [ "$tries" -lt 20 ] && time_is_left; do
		tries=$((tries + 1))
		limited 300 work/player/tracehost-play --differences "$differences" --time 30 --results "$played/new.tsv" \
			"$played/rest.txt" >"$played/new.out" 2>&1
		code=$?
		[ ! -f "$played/new.tsv" ] || whole_lines "$played/new.tsv" >>"$played/rows.tsv"
		cat "$played/new.out" >>"$played/all.out"
		ended_at=$(awk -f rest.awk out="$played/next.txt" "$played/rows.tsv" "$played/ended.tsv" "$1")
		[ -n "$ended_at" ] || return
		printf '%s\t%s\n' "$ended_at" "$(why_ended "$code" "$played/new.out")" >>"$played/ended.tsv"
		mv "$played/next.txt" "$played/rest.txt"
		rm -f "$played/new.tsv"
	done
	time_is_left && why_left="the player had ended $tries times before"
}

play_part() {
	why=$why_no_player
	[ "$system" = FreeBSD ] || case $1 in freebsd*) why="has FreeBSD's requests" ;; esac
	is_part "$1" || why=$not_asked
	for file in sessions/"$1"-[0-9]*.txt; do
		[ -f "$file" ] || continue
		name=${file##*/}
		played=work/played/${name%.txt}
		if [ -z "$why" ]; then
			why_left='no time was left'
			use_setting "$file"
			play_file "$file"
			awk -f collect.awk part="$1" why="$why_left" "$file" "$played/rows.tsv" "$played/ended.tsv"
		else
			awk -f collect.awk part="$1" why="$why" "$file"
		fi
	done >>work/sessions.tsv
}

play_sessions() {
	rm -rf work/played
	: >work/sessions.tsv
	case $system in
	FreeBSD) differences=differences/freebsd.tsv ;;
	*) differences=differences/linux.tsv ;;
	esac
	case " $PARTS " in *shared* | *freebsd*) build_player ;; *) why_no_player=$not_asked ;; esac
	for part in shared shared-users freebsd freebsd-users; do
		printf '%s: %s\n' "$(date +%H:%M:%S)" "$part"
		play_part $part
	done
	cat work/played/*/rows.tsv 2>/dev/null >work/rows.tsv
	if ! awk -F "$tab" '$1 == "difference" && NF == 4 { differed[$2] += $3; met[$2] += $4 }
		END { for (name in met) printf "difference\t%s\t%d\t%d\n", name, differed[name], met[name] }' work/rows.tsv >work/met.part ||
		! sort work/met.part >work/met.tsv; then
		fault 'this folder takes no more files'
	fi
}

# ---- the shortest session of each way to differ

# Plays a cut session, and says whether it differs in the way of this class.
still_differs() {
	rm -f work/short/new.tsv
	limited 60 work/player/tracehost-play --differences "$differences" --time 20 --results work/short/new.tsv "$1" >/dev/null 2>&1
	[ -f work/short/new.tsv ] && awk -f way.awk -f ways.awk select="$2" work/short/new.tsv | grep -q .
}

# Writes a line for each way: how many sessions, which is the shortest, and its steps.
shorten() {
	rm -rf work/short
	mkdir -p work/short
	: >work/shortest.tsv
	awk -f way.awk -f ways.awk work/sessions.tsv | sort -t "$tab" -k1,1nr -k2,2 | head -n 100 >work/ways.tsv
	while IFS="$tab" read -r count name line way; do
		file=$(grep -lxF "# $name" sessions/*.txt | head -n 1)
		for cut in whole needed changing; do
			awk -f cut.awk cut=$cut name="$name" line="$line" "$file" >work/short/$cut.txt
		done
		use_setting "$file"
		chosen=whole
		for cut in changing needed; do
			[ $chosen = whole ] && still_differs work/short/$cut.txt "$way" </dev/null && chosen=$cut
		done
		printf '%s\t%s\t%s\t%s\n' "$count" "$name" "$chosen" "$(grep -- ' -> ' work/short/$chosen.txt |
			awk '{ printf "%s%s", (NR > 1 ? " ; " : ""), $0 }')" >>work/shortest.tsv
	done <work/ways.tsv
	restore_setting
}

# ---- cases

# The model's word for a case: `pass`, or `fail` if DIFFERENCES.txt lists it; `either` if a kernel may answer otherwise.
expected() {
	awk -v program="$1" -v name="$2" '
		$1 == program && $2 == name { word = "fail" }
		$1 == "#" && $2 == program && $3 == name { word = "either" }
		END { print word ? word : "pass" }' cases/DIFFERENCES.txt
}

write_case() { # PROGRAM CASE VERDICT LISTED MODEL KERNEL
	printf 'case\tcases\t%s %s\t%s\t%s\t-\t-\t-\t-\t%s\t%s\t-\n' "$1" "$2" "$3" "$4" "$5" "$6" >>work/cases.tsv
}

# What a case's output says, in a line; the result is that of atf-c(3), or of tracehost's behind the case's name.
said() {
	awk -v name="$1" '
		{ sub("^" name ": ", "") }
		/^(passed|failed|skipped|expected_failure)/ { found = $0 }
		NF { last = $0 }
		END { print found ? found : last }' work/case.out | cell
}

# How a case of this name went: pass, `fail: TEXT`, or `not tried: TEXT`.
outcome() {
	said=$(said "$2")
	if [ "$1" -eq 0 ] && [ "$said" = passed ]; then
		echo pass
	elif [ "$1" -eq 0 ]; then
		echo "not tried: $said"
	elif [ "$1" -eq 124 ] && ! time_is_left; then
		echo 'not tried: no time was left'
	elif [ "$1" -eq 124 ]; then
		echo "fail: no end in $CASE_SECONDS seconds"
	elif [ "$1" -eq 125 ] || { [ -n "$RUN" ] && [ "$1" -ne 1 ]; }; then
		echo "not tried: status $1: $said"
	else
		echo "fail: status $1: $said"
	fi
}

judge_case() { # PROGRAM CASE OUTCOME
	model=$(expected "$1" "$2")
	listed=-
	case $3 in not*) verdict='not tried' ;; *) verdict=differs ;; esac
	if [ -n "$RUN" ]; then # the model itself, which has to fail as its list says
		case $model/$3 in
		pass/pass | either/pass) verdict=same ;;
		fail/fail*) verdict=listed listed="$1.$2" ;;
		esac
	else
		case $model/$3 in
		pass/pass | either/pass) verdict=same ;;
		fail/pass | either/fail*) verdict=listed listed="$1.$2" ;;
		esac
	fi
	case $model in either) model=pass ;; esac
	write_case "$1" "$2" "$verdict" "$listed" "$model" "$3"
}

# In an empty folder of its own, which may have become one that nobody may enter.
run_case() {
	chmod -R u+rwx work/here 2>/dev/null
	rm -rf work/here
	mkdir work/here || fault 'this folder takes no files'
	cd work/here || fault 'no folder for a case'
	# shellcheck disable=SC2086 # RUN may be several words
	limited "$CASE_SECONDS" $RUN "../cases/$1" "$2" >../case.out 2>&1
	code=$?
	cd ../.. || fault 'the folder is gone'
	judge_case "$1" "$2" "$(outcome "$code" "$2")"
}

run_program() {
	program=${1##*/}
	program=${program%.c}
	why=
	if ! is_part cases; then
		why=$not_asked
	elif [ "$system" != FreeBSD ] && [ -z "$RUN" ]; then
		why="needs FreeBSD's headers, or CC=tracehost-cc RUN=tracehost-run"
	elif ! time_is_left; then
		why='no time was left'
	else
		# shellcheck disable=SC2086 # several words
		limited 120 $CC -g -o "work/cases/$program" "$1" $LIBRARIES >work/build.out 2>&1 ||
			why="cannot be built: $(first_error work/build.out)"
	fi
	# shellcheck disable=SC2013 # a case is a word
	for case in $(sed -n 's/.*ATF_TP_ADD_TC(tp, \(.*\));/\1/p' "$1"); do
		if [ -n "$why" ]; then
			write_case "$program" "$case" 'not tried' - "$(expected "$program" "$case")" "$why"
		elif time_is_left; then
			run_case "$program" "$case"
		else
			write_case "$program" "$case" 'not tried' - "$(expected "$program" "$case")" 'no time was left'
		fi
	done
}

run_cases() {
	printf '%s: cases\n' "$(date +%H:%M:%S)"
	rm -rf work/cases
	mkdir work/cases || fault 'this folder takes no files'
	: >work/cases.tsv
	for source in cases/*_test.c; do
		run_program "$source"
	done
}

# ---- the results

# How many rows there have to be.
count_all() {
	cat sessions/*.txt cases/*_test.c | grep -c -e '^# ' -e 'ATF_TP_ADD_TC(tp, '
}

write_results() {
	build=/dev/null
	[ -z "$why_no_player" ] || [ ! -f work/player.out ] || build=work/player.out
	{
		cat work/head.tsv &&
			printf 'what\tpart\tname\tverdict\tlisted\tcompared\tsteps\tline\tstep\tmodel\tkernel\tshortest\n' &&
			awk -F "$tab" -f join.awk work/shortest.tsv work/sessions.tsv &&
			cat work/cases.tsv work/met.tsv &&
			cell <$build | sed 's/^/# build: /; 200q' &&
			printf '# end\t%s\n' "$(count_all)"
	} >"$results.part" || fault "$results cannot be written"
	rows=$(grep -c -e "^session$tab" -e "^case$tab" "$results.part")
	[ "$(tail -n 1 "$results.part")" = "# end$tab$rows" ] || fault "$results cannot be written whole"
	mv -f "$results.part" "$results" || fault "$results cannot be written"
}

# The status, with a sentence.
verdict() {
	awk -F "$tab" -v not_asked="$not_asked" -v parts="$PARTS" '
		$4 == "differs" { differs++ }
		$4 == "not tried" && $11 != not_asked { left++ }
		$4 == "not tried" && $11 == not_asked { unasked++ }
		$1 == "session" || $1 == "case" { all++ }
		END {
			if (unasked)
				print unasked " of " all " weren\047t asked for. Of the others (" parts "):"
			if (differs)
				print differs " differ otherwise than is listed."
			if (left)
				print left " could not be tried."
			if (!differs && !left)
				print "All was run, and nothing differs but what is listed."
			exit differs ? 1 : left || unasked == all ? 3 : 0
		}' "$results"
}

# Sets when nothing more is begun: at so many sixtieths of the time.
until_part() {
	end=$((start + MINUTES * $1))
}

check_variables
start=$(date +%s)
trap stopped HUP INT QUIT PIPE TERM
rm -f "$results.part"
[ ! -f "$results" ] || mv -f "$results" "$results.old" || fault "$results of an earlier run cannot be renamed"
until_part 60
build_limited
write_head >work/head.tsv || fault 'this folder takes no more files'
until_part 36 # a player that hangs again and again leaves time for the cases
play_sessions
until_part 42
shorten
until_part 60
run_cases
write_results
awk -F "$tab" -f way.awk -f table.awk "$results" || fault 'the table cannot be printed'
printf '\n%s\n' "$results"
verdict
