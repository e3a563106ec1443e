// Of weak definitions alone the first counts.
#include <stdio.h>
int asked(void);
int main(void) { return asked(); }
