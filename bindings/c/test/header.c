/* Compiled alone, as C and as C++: the header needs no other, may stand twice, and its macros initialise. */
#include <sourcemap.h>
#include <sourcemap.h>

sm_handle empty = SM_EMPTY;
sm_text nothing = SM_TEXT_EMPTY;
sm_code codes[] = { SM_OK, SM_OUT_OF_MEMORY, SM_PAST_LIMIT };
uint32_t kinds[] = { SM_KIND_EMPTY, SM_KIND_BYTES, SM_NONE, SM_INTERFACE };
char version[] = SM_VERSION;
uint32_t (*linked)(void) = sm_interface;
