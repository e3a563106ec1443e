static int count = 3;
static int next(void) { static int calls; return ++count + ++calls; }
int third(void) { return next() * next(); }
