/* These headers are for the kit's compiler, which has none. They have what the library needs of C's. */
#define bool _Bool
#define true 1
#define false 0
