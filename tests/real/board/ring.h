struct ring;
struct ring *ring_new(unsigned size);
void ring_put(struct ring *ring, int value);
int ring_get(struct ring *ring);
