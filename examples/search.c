/* Binary search: the place of a key in a sorted array, or -1 where it isn't there. */
int find(const int *sorted, int n, int key) {
  int low = 0;
  int high = n - 1;
  while (pc_label(low == high, 1, "one-left"), pc_label(low > high, 2, "none-left"), low <= high) {
    int middle = low + (high - low) / 2;
    if (pc_label(sorted[middle] < key, 3, "go-right"), sorted[middle] < key)
      low = middle + 1;
    else if (pc_label(sorted[middle] > key, 4, "go-left"), sorted[middle] > key)
      high = middle - 1;
    else {
      pc_label(middle == 0, 5, "at-front");
      pc_label(middle == n - 1, 6, "at-back");
      pc_label(middle > 0 && sorted[middle - 1] == key, 7, "one-of-many");
      return middle;
    }
  }
  return -1;
}
