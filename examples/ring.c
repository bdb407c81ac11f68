/* A ring buffer: puts bytes behind those that it holds, as long as there is room. */
typedef unsigned char byte;

enum { CAPACITY = 8 };

struct ring {
  unsigned head;
  unsigned count;
  byte bytes[CAPACITY];
};

static int put(struct ring *ring, byte value) {
  unsigned tail;
  pc_label(ring->count == 0, 1, "was-empty");
  if (pc_label(ring->count == CAPACITY, 2, "full"), ring->count == CAPACITY)
    return 0;
  tail = (ring->head + ring->count) % CAPACITY;
  pc_label(tail < ring->head, 3, "wrapped");
  ring->bytes[tail] = value;
  ring->count++;
  return 1;
}

unsigned put_all(struct ring *ring, const byte *bytes, unsigned n) {
  unsigned i;
  for (i = 0; i < n; i++)
    if (!put(ring, bytes[i])) {
      pc_label(i == 0, 4, "none-put");
      pc_label(i > 0, 5, "some-put");
      break;
    }
  pc_label(i == n, 6, "all-put");
  return i;
}
