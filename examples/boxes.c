/* The weight of a list of boxes, as a share of what is left of a limit. */
struct box {
  int weight;
  struct box *next;
};

int limit = 10;

int share(struct box *first) {
  int total = 0;
  while (pc_label(first != 0, 1, "loop"), first) {
    pc_label(first->weight > limit, 2, "heavy");
    total += first->weight;
    first = first->next;
  }
  switch (total) {
    case 0: {
      pc_label(1, 3, "empty");
      return 0;
    }
    default:
      return total / (limit - 10);
  }
}
