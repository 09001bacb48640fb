// What fiobench takes from the kit's C code, which is built for x86-64 alone.
#include <errno.h>

int rattle_errno(void) { return errno; }
