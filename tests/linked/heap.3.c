struct list { long value; struct list *rest; };
struct list *turned(struct list *list) {
    struct list *done = 0;
    while (list) {
        struct list *rest = list->rest;
        list->rest = done;
        done = list;
        list = rest;
    }
    return done;
}
