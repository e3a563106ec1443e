static int count = 20;
static int next(void) { return ++count; }
int second(void) { return next() + next(); }
