/* Which of document 02's requests the product has. The landing of a request changes the number, here alone. */
#ifndef PRODUCT_LEVEL_H
#define PRODUCT_LEVEL_H
#include "reference/ref2650.h"

/* n for U1 to Un. A program gives it to the reference before anything else: ref_level = PRODUCT_LEVEL. */
enum { PRODUCT_LEVEL = 6 };
#endif
