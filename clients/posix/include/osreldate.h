/* FreeBSD's <osreldate.h>: the release whose manual pages the model is made after. */
#ifndef __FreeBSD_version
#define __FreeBSD_version 1400097
#endif
