/* Puppets: each LWP spins in user mode, and does what the player asks it for by one system call. */
#include <errno.h>
#include <signal.h>
#include <string.h>
#include <sys/wait.h>
#include <unistd.h>
#include "play.h"

/* Whose handler runs. As vfork(2) returns, the child's slot is still that of the thread which it had. */
static struct slot *slot_of_handler(void)
{
    struct slot *self = system_self();
    int lender = self == NULL ? 0 : atomic_load(&self->lender);
    return lender != 0 && getpid() != atomic_load(&self->process) ? &stage->slots[lender - 1] : self;
}

static void count_signal(int signal)
{
    int number = model_signal(signal);
    struct slot *self = slot_of_handler();
    if (self != NULL && number > 0)
        atomic_fetch_add(&self->caught[number], 1);
}

static int set_action(int signal, int action)
{
    struct sigaction new = {.sa_flags = SA_RESTART};
    sigemptyset(&new.sa_mask);
    new.sa_handler = action == ACTION_DEFAULT ? SIG_DFL : action == ACTION_IGNORE ? SIG_IGN : count_signal;
    return sigaction(signal, &new, NULL);
}

static int block(unsigned set)
{
    sigset_t blocked;
    sigemptyset(&blocked);
    for (int number = 1; number < MODEL_SIGNALS; number++)
        if ((set >> number & 1) != 0 && native_signal(number) > 0)
            sigaddset(&blocked, native_signal(number));
    return sigprocmask(SIG_SETMASK, &blocked, NULL);
}

static void newborn(int slot)
{
    system_set_self(&stage->slots[slot]);
    system_newborn(&stage->slots[slot]);
}

/* The child of a fork goes on as the LWP of its own slot. */
static int make_child(int slot)
{
    pid_t child = fork();
    if (child == 0)
        newborn(slot);
    return child;
}

/* The child has its maker's memory and thread until it ends or becomes another image: it never returns from here. */
static int make_vfork_child(struct slot *self, int slot)
{
    atomic_store(&stage->slots[slot].lender, (int)(self - stage->slots) + 1);
    pid_t child = vfork();
    if (child == 0)
        puppet_live(slot);
    system_set_self(self);
    return child;
}

int puppet_become_image(int number)
{
    char slot[16];
    snprintf(slot, sizeof slot, "%d", number);
    char *words[] = {PUPPET_NAME, slot, NULL}, *none[] = {NULL};
    return fexecve(IMAGE_DESCRIPTOR, words, none);
}

static long obey(struct slot *self, const struct command *command, struct answer *answer)
{
    switch (command->act) {
    case ACT_PTRACE: return system_ptrace(command, answer);
    case ACT_WAIT4: return wait4((pid_t)command->number, &answer->status, command->option | WNOHANG, NULL);
    case ACT_KILL: return kill((pid_t)command->number, command->signal);
    case ACT_SIGACTION: return set_action(command->signal, command->option);
    case ACT_RAISE: return system_raise(command->signal);
    case ACT_BLOCK: return block(command->set);
    case ACT_FORK: return make_child(command->child);
    case ACT_VFORK: return make_vfork_child(self, command->child);
    case ACT_EXEC: return puppet_become_image((int)(self - stage->slots));
    case ACT_EXIT: _exit((int)command->number);
    case ACT_THR_NEW: return system_thread(command->child);
    case ACT_THR_EXIT: system_thread_end();
    default: return system_other(command->number);
    }
}

static void do_command(struct slot *self, unsigned number)
{
    atomic_store(&self->begun, number);
    errno = 0;
    long result = obey(self, &self->command, &self->answer);
    if (system_self() != self) /* the child of a fork */
        return;
    self->answer.result = result;
    self->answer.error = result < 0 ? errno : 0;
    atomic_store(&self->done, number);
}

static unsigned session;

void puppet_begin(int slot)
{
    session = atomic_load(&stage->session);
    puppet_live(slot);
}

/* Both processes of the player may be killed at once. */
static bool player_is_gone(void)
{
    pid_t player = atomic_load(&stage->player);
    return player != 0 && kill(player, 0) < 0 && errno == ESRCH;
}

void puppet_live(int slot)
{
    enum { LOOK = 4096 };
    newborn(slot);
    for (unsigned round = 1; atomic_load(&stage->session) == session; round++) {
        struct slot *self = system_self();
        if (round % LOOK == 0 && !atomic_load(&stage->silent) && player_is_gone())
            break;
        unsigned asked = atomic_load(&self->asked);
        if (asked != atomic_load(&self->begun))
            do_command(self, asked);
        system_rest(atomic_load(&stage->silent));
        atomic_fetch_add(&system_self()->beat, 1);
    }
    _exit(0);
}

/* A new image of a puppet: its exec is done. */
void puppet_resume(int slot)
{
    struct slot *self = &stage->slots[slot];
    self->answer.result = 0;
    self->answer.error = 0;
    newborn(slot);
    atomic_store(&self->is_image, true);
    atomic_store(&self->done, atomic_load(&self->begun));
    puppet_begin(slot);
}
