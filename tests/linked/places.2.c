struct box { int low, high; };
void widen(struct box *box, int by) { box->low -= by; box->high += by; }
int area(struct box box) { return (box.high - box.low) * (box.high - box.low); }
