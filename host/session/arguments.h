/* The command line. */
#ifndef SESSION_ARGUMENTS_H
#define SESSION_ARGUMENTS_H

#include "session.h"

/* What it asks for; what is wrong with it is said, and ends the program. */
struct asked arguments(int count, char **given);

#endif
