/* Truth values (C99 7.16). There is no _Bool, so that bool is int here: a value that is assigned is kept as it is, and doesn't become 1, and a bool has four bytes. */
#ifndef EACSL_STDBOOL_H
#define EACSL_STDBOOL_H

#define bool int
#define true 1
#define false 0
#define __bool_true_false_are_defined 1

#endif
