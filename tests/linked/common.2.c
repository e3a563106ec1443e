int shared;
long long room;
int given = 12;
void put(void) { shared = 5; room = 1234567890123; given++; }
