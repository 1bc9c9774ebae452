/* Ends with status 75 where other work disturbs this machine, and says so. */
#include "rounds.h"

int main(void) { return is_disturbed() ? 75 : 0; }
