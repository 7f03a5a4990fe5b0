/* library.c: the library for C in one file. It is portable/pcapfile.c of the repository, or the copy beside this file in an sdist. */
#include "pcapfile.c"
