/* Removes the first node of a linked list that holds a value. */
struct node {
  int value;
  struct node *next;
};

struct list {
  struct node *first;
  int length;
};

int remove_value(struct list *list, int value) {
  struct node *previous = 0;
  struct node *node = list->first;
  pc_label(node == 0, 1, "empty");
  while (node && node->value != value) {
    previous = node;
    node = node->next;
    pc_label(node == 0, 2, "not-there");
  }
  if (!node)
    return 0;
  pc_label(previous && node->next, 3, "middle");
  pc_label(previous && !node->next, 4, "last");
  if (pc_label(!previous, 5, "first"), previous)
    previous->next = node->next;
  else
    list->first = node->next;
  list->length--;
  pc_label(list->length == 0, 6, "now-empty");
  return 1;
}
