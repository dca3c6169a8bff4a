#include "aegis.h"
static char a[2 << 20];
int main(void) { a[5] = 1; return a[6]; }
