void add_outside(int byte);
__attribute__((constructor(150))) static void a(void) { add_outside('c'); }
__attribute__((constructor(200))) static void b(void) { add_outside('d'); }
