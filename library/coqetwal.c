/* The functions of the header that are small C over those of the library, as functions of the shared library: a program that
 * loads it while it runs, such as one in Python, has no use for inline functions. tools/shared-library compiles this file. */
#define COQETWAL_FUNCTION

#include "coqetwal.h"
