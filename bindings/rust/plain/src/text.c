/* The text of a refusal in include/ndplan.h, as a function that can be linked with. */
#include "ndplan.h"

const char *header_refusal_text(uint32_t number);

const char *header_refusal_text(uint32_t number) { return ndp_refusal_text(number); }
