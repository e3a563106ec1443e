// A table by hashes, open addressing, with names that are taken out again.
#include <stdio.h>
#include <string.h>
#include <stdint.h>

enum { SLOTS = 64 };
typedef struct { char name[8]; uint32_t hash; enum { FREE, USED, GONE } state; int value; } Slot;
static Slot slots[SLOTS];

static uint32_t hash_of(const char *name) {
    uint32_t hash = 2166136261u;
    for (; *name; name++) hash = (hash ^ (uint8_t)*name) * 16777619u;
    return hash;
}

static int equal(const char *a, const char *b) {
    while (*a && *a == *b) a++, b++;
    return *a == *b;
}

static Slot *find(const char *name, int for_new) {
    uint32_t hash = hash_of(name);
    Slot *gone = NULL;
    for (uint32_t step = 0; step < SLOTS; step++) {
        Slot *slot = &slots[(hash + step) % SLOTS];
        if (slot->state == FREE) return for_new ? gone ? gone : slot : NULL;
        if (slot->state == GONE) { if (!gone) gone = slot; continue; }
        if (slot->hash == hash && equal(slot->name, name)) return slot;
    }
    return for_new ? gone : NULL;
}

static void set(const char *name, int value) {
    Slot *slot = find(name, 1);
    if (!slot) return;
    memset(slot, 0, sizeof *slot);
    memcpy(slot->name, name, strlen(name) + 1);
    slot->hash = hash_of(name);
    slot->state = USED;
    slot->value = value;
}

int main(void) {
    char name[8] = "k";
    for (int i = 0; i < 50; i++) {
        name[1] = (char)('a' + i % 26);
        name[2] = (char)('0' + i / 26);
        set(name, i * i);
        if (i % 3 == 2) { Slot *slot = find(name, 0); if (slot) slot->state = GONE; }
    }
    int used = 0, sum = 0;
    for (int i = 0; i < SLOTS; i++) if (slots[i].state == USED) used++, sum += slots[i].value;
    Slot *slot = find("kd1", 0), *none = find("kc0", 0);
    printf("%d %d %d %d\n", used, sum, slot ? slot->value : -1, none ? none->value : -1);
    return sum % 256;
}
