/* Why calls are refused, in words: the condition that held is named. */
#include "check.h"
#include "../tracehost_client.h"

#include <pthread.h>
#include <string.h>

static const th_caller self = {1001, 1000};

static void says(const char *said, const char *wanted)
{
    if (strcmp(said, wanted) != 0)
        printf("said %s\nand not %s\n", said, wanted);
    CHECK(strcmp(said, wanted) == 0);
}

/* a session in which 1000 has attached to 1001, and hasn't waited for it */
static th_host *begin(void)
{
    th_host *h = th_open(NULL);
    CHECK(th_spawn(h, 1001, NULL, NULL) == 0 && th_spawn(h, 1001, NULL, NULL) == 0);
    CHECK(th_ptrace(h, self, TH_PT_ATTACH, 1001, NULL, 0) == 0 && th_explain(h)[0] == '\0');
    return h;
}

#define BY "ptrace(PT_CONTINUE, 1001) by 1000: EBUSY, "
#define UNTOLD "no wait has reported the stop of 1001"
static const char untold[] = BY UNTOLD;
static const char any_of_three[] = BY "another process traces 1001, or 1001 is in no trace stop, or " UNTOLD;

static void conditions(void)
{
    th_host *h = begin();
    int mask = TH_PTRACE_FORK | 1 << 20;
    REFUSED(EBUSY, th_ptrace(h, self, TH_PT_CONTINUE, 1001, NULL, 0));
    says(th_explain(h), untold);
    CHECK(errno == EBUSY && th_explain(h) == th_explain(h));
    REFUSED(EINVAL, th_kill(h, self, 1001, -1));
    says(th_explain(h), "kill(1001, -1) by 1000: EINVAL, -1 is no signal");
    REFUSED(TH_EHELD, th_turn_raise(h, 1001, 100001, TH_SIGTERM, NULL));
    says(th_explain(h), "turn(100001, raise SIGTERM) by user 1001: held, the process of LWP 100001 is in a trace stop");
    CHECK(th_wait4(h, self, -1, NULL, 0) == 1001 && th_explain(h)[0] == '\0');
    REFUSED(EINVAL, th_ptrace(h, self, TH_PT_SET_EVENT_MASK, 1001, &mask, (int)sizeof mask));
    says(th_explain(h), "ptrace(PT_SET_EVENT_MASK, 1001) by 1000: EINVAL, the mask's 0x100000 is no event");
    REFUSED(EINVAL, th_ptrace(h, self, TH_PT_CONTINUE, 1001, NULL, 77));
    says(th_explain(h), "ptrace(PT_CONTINUE, 1001, 77) by 1000: EINVAL, 77 is no signal");
    CHECK(th_close(h) == 0);
}

/* What isn't refused by the model has no explanation of an earlier call. */
static void others(void)
{
    th_host *h = begin(), *other = th_open(NULL);
    REFUSED(EBUSY, th_ptrace(h, self, TH_PT_CONTINUE, 1001, NULL, 0));
    REFUSED(EINVAL, th_ptrace(h, self, 77, 1001, NULL, 0));
    CHECK(th_explain(h)[0] == '\0' && th_explain(other)[0] == '\0');
    REFUSED(TH_EREFUSED, th_spawn(h, 1065, NULL, NULL));
    says(th_explain(h), "line 5, user: 1065 is out of range; expected a whole number from 1001 to 1064");
    CHECK(th_close(h) == 0 && th_close(other) == 0);
}

static void *waits(void *host)
{
    CHECK(th_wait4(host, self, -1, NULL, 0) == 1001);
    CHECK(th_explain(host)[0] == '\0');
    return NULL;
}

/* Another thread's step comes between the refusal and the question, so the rows may be others. */
static void changed_rows(void)
{
    th_host *h = begin();
    pthread_t thread;
    REFUSED(EBUSY, th_ptrace(h, self, TH_PT_CONTINUE, 1001, NULL, 0));
    CHECK(pthread_create(&thread, NULL, waits, h) == 0 && pthread_join(thread, NULL) == 0);
    says(th_explain(h), any_of_three);
    CHECK(th_close(h) == 0);
}

int main(void)
{
    conditions();
    others();
    changed_rows();
    if (!failed)
        printf("the tests of explanations passed\n");
    return failed;
}
