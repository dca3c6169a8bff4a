/* Calls between environments with eight words each way, as calls.c has them with one. words.s has where both enter. */
#include "serving.h"

void aegis_words_entered(void);

unsigned aegis_words[AEGIS_WORDS]; /* of the call that is served */

void aegis_serve_words(unsigned clients, void (*answer)(unsigned client, unsigned words[AEGIS_WORDS]))
{
    aegis_open(clients, aegis_words_entered, (unsigned)answer);
}
