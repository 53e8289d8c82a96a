/* One random call of the eight. */
#ifndef ONE_CALL_H
#define ONE_CALL_H

#include "lent.h"

enum call { OPEN, CONVERT, WINDOW, REST, WRITE, READ, PREVIEW, ESTIMATE, CALLS_OF_C };

/* Lends the buffers, makes a call and answers which and with what number. */
enum call one_call(struct lent *lent, uint32_t *number);

/* How often a conversion brought over bytes of this form. */
uint32_t converted_from(uint8_t form);

#endif
