/* In place of the host's header of this name. */
#ifndef __siginfo_t_defined
#define __siginfo_t_defined 1

#include <tracehost/siginfo.h>

typedef struct __siginfo siginfo_t;
#define si_trapno _reason._fault._trapno
#define si_timerid _reason._timer._timerid
#define si_overrun _reason._timer._overrun
#define si_mqd _reason._mesgq._mqd
#define si_band _reason._poll._band

#endif
