/* A debugger that waits for any of its N targets, and continues it; each target raises two signals and exits. Each d_step is
   a step of the library. */
#define RUNS 0
#define STOPPED 1
#define TOLD 2
#define ZOMBIE 3
#define COLLECTED 4

byte state[N], left[N], at[N]; /* at: 0 raise, 1 compute, 2 enter exit, 3 leave, 4 has ended */
bool pending[N];
byte live = N, at_hand = N;

#define TARGET(i) \
	:: d_step { state[i] == RUNS && at[i] == 0 -> pending[i] = true; at[i] = 1 } \
	:: d_step { state[i] == RUNS && at[i] == 1 && pending[i] -> pending[i] = false; state[i] = STOPPED } \
	:: d_step { state[i] == RUNS && at[i] == 1 && !pending[i] -> \
		left[i] = left[i] - 1; if :: left[i] == 0 -> at[i] = 2 :: else -> at[i] = 0 fi } \
	:: d_step { state[i] == RUNS && at[i] == 2 -> at[i] = 3 } \
	:: d_step { state[i] == RUNS && at[i] == 3 -> at[i] = 4; state[i] = ZOMBIE } \
	:: d_step { at_hand == N && live > 0 && state[i] == STOPPED -> state[i] = TOLD; at_hand = i } \
	:: d_step { at_hand == N && live > 0 && state[i] == ZOMBIE -> state[i] = COLLECTED; live = live - 1 } \
	:: d_step { at_hand == i && state[i] == TOLD -> state[i] = RUNS; at_hand = N }

active proctype all()
{
	d_step {
		byte i = 0;
		do
		:: i < N -> left[i] = 2; i++
		:: else -> break
		od;
		i = 0
	}
end:	do
	TARGETS
	od
}
