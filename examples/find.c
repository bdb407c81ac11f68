/* Binary search: the place of a key in a sorted array, or -1 where it isn't there. */
int find(const int *sorted, int n, int key) {
  int low = 0, high = n - 1;
  while (low <= high) {
    int middle = low + (high - low) / 2;
    if (sorted[middle] < key)
      low = middle + 1;
    else if (sorted[middle] > key)
      high = middle - 1;
    else
      return middle;
  }
  return -1;
}
