/* The state that a load has to write, worked out a second and slower way. */
#ifndef VECTOR_ERASE_H
#define VECTOR_ERASE_H

#include "vector_lent.h"

/* For an image that reads without refusal and whose erased form fits. */
struct bytes state_due(struct bytes image);

#endif
