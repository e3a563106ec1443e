int level = 4;
int early(void) { return 300; }
__attribute__((weak)) int late(void) { return 2; }
int from_second(void) { return level * 1000 + early() + late(); }
