#include <setjmp.h>
#include "aegis.h"
int main(void) { return 0; }
