/* The compiler's <stddef.h> looks for this one of FreeBSD's, if a source sees __FreeBSD__. The host's are in
 * <sys/types.h>. */
#include <sys/types.h>
