/* The number from least to greatest that is nearest to x. */
int clamp(int x, int least, int greatest) {
  if (pc_label(x < least, 1, "below"), x < least)
    return least;
  if (pc_label(x > greatest, 2, "above"), x > greatest)
    return greatest;
  pc_label(x == least || x == greatest, 3, "at-an-end");
  return x;
}
