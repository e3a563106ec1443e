void add_outside(int byte);
__attribute__((constructor)) static void a(void) { add_outside('e'); }
__attribute__((constructor(101))) static void b(void) { add_outside('f'); }
