// What the programs of host/ need of <stdlib.h>.
_Noreturn void exit(int);
