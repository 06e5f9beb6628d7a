/* A debugger that sleeps until SIGCHLD, and its target, which raises SIGNALS signals and exits. Each d_step is a step of the
   library. RIGHT is the remedy, TICKER a third process that computes for ever. ENDS lets processes end, and PROGRESS marks all
   steps but those of the ticker while others haven't ended. */
#define RUNS 0
#define STOPPED 1
#define TOLD 2
#define ZOMBIE 3
#define COLLECTED 4

/* the debugger's places: block, pause or sigsuspend, unblock, poll, continue */
#define BLOCK 0
#define ENTER_PAUSE 1
#define LEAVE_PAUSE 2
#define AFTER_PAUSE 3
#define UNBLOCK_ASLEEP 4
#define ENTER_SUSPEND 5
#define LEAVE_SUSPEND 6
#define AFTER_SUSPEND 7
#define BLOCK_AGAIN 8
#define UNBLOCK 9
#define POLL 10
#define CONTINUE 11
#define ENDED 12

/* the target's: raise, compute, enter exit, leave, and its end */
#define RAISE 0
#define COMPUTE 1
#define ENTER 2
#define LEAVE 3
#define GONE 4

#ifdef RIGHT
#define AWAIT BLOCK
#define SLEEP UNBLOCK_ASLEEP
#define NEWS UNBLOCK
#else
#define AWAIT ENTER_PAUSE
#define SLEEP ENTER_PAUSE
#define NEWS POLL
#endif

#ifdef PROGRESS
#define MADE(mark) ; mark: skip
#else
#define MADE(mark)
#endif

#ifdef ENDS
#define END(is_ended) :: is_ended -> break
#else
#define END(is_ended)
#endif

bool chld, news, blocked;  /* SIGCHLD is pending for the debugger, its handler has noted it, it is blocked */
bool pending = true;       /* a signal of the target's, at the beginning SIGSTOP */
byte at = AWAIT, there = RAISE, state = RUNS, left = SIGNALS;

#define MEETS (chld && !blocked)
#define LOOK if :: news -> news = false; at = NEWS :: else -> at = SLEEP fi
#define IS_TURN (at != LEAVE_PAUSE && at != LEAVE_SUSPEND && at < POLL)

active proctype debugger()
{
	do
	:: d_step { IS_TURN && MEETS ->
		chld = false; news = true; if :: at == ENTER_SUSPEND -> at = BLOCK_AGAIN :: else fi } MADE(progress_caught)
	:: d_step { at == BLOCK && !MEETS -> blocked = true; LOOK } MADE(progress_block)
	:: d_step { at == ENTER_PAUSE && !MEETS -> at = LEAVE_PAUSE } MADE(progress_pause)
	:: d_step { at == LEAVE_PAUSE && MEETS -> at = AFTER_PAUSE } MADE(progress_woken)
	:: d_step { at == AFTER_PAUSE && !MEETS -> LOOK } MADE(progress_after)
	:: d_step { at == UNBLOCK_ASLEEP && !MEETS -> blocked = false; at = ENTER_SUSPEND } MADE(progress_asleep)
	:: d_step { at == ENTER_SUSPEND && !MEETS -> at = LEAVE_SUSPEND } MADE(progress_suspend)
	:: d_step { at == LEAVE_SUSPEND && MEETS -> at = AFTER_SUSPEND } MADE(progress_resumed)
	:: d_step { at == AFTER_SUSPEND && !MEETS -> at = BLOCK_AGAIN } MADE(progress_computes)
	:: d_step { at == BLOCK_AGAIN && !MEETS -> blocked = true; LOOK } MADE(progress_again)
	:: d_step { at == UNBLOCK && !MEETS -> blocked = false; at = POLL } MADE(progress_unblock)
	:: d_step { at == POLL && state == STOPPED -> state = TOLD; at = CONTINUE } MADE(progress_stop)
	:: d_step { at == POLL && state == ZOMBIE -> state = COLLECTED; at = ENDED } MADE(progress_exit)
	:: d_step { at == POLL && state != STOPPED && state != ZOMBIE ->
		at = AWAIT; if :: AWAIT == SLEEP -> LOOK :: else fi } MADE(progress_nothing)
	:: d_step { at == CONTINUE -> state = RUNS; at = POLL } MADE(progress_continue)
	END(at == ENDED)
	od
}

active proctype target()
{
	do
	:: d_step { state == RUNS && there < LEAVE && pending -> pending = false; state = STOPPED; chld = true } MADE(progress_stops)
	:: d_step { state == RUNS && there == RAISE && !pending -> pending = true; there = COMPUTE } MADE(progress_raise)
	:: d_step { state == RUNS && there == COMPUTE && !pending ->
		left = left - 1; if :: left == 0 -> there = ENTER :: else -> there = RAISE fi } MADE(progress_compute)
	:: d_step { state == RUNS && there == ENTER && !pending -> there = LEAVE } MADE(progress_enter)
	:: d_step { state == RUNS && there == LEAVE -> there = GONE; state = ZOMBIE; chld = true } MADE(progress_leave)
	END(there == GONE)
	od
}

#ifdef TICKER
active proctype ticker()
{
	do
	:: at != ENDED || there != GONE -> skip
	:: at == ENDED && there == GONE -> progress_alone: skip
	od
}
#endif
