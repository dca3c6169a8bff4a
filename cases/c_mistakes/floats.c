#include "aegis.h"
int main(void) { volatile float f = 1; f = f * 3.5f; return (int) f; }
