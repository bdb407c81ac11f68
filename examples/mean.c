/* The mean of so many readings of a sensor that lie in a window. Readings outside of it are passed over. */
struct window {
  int least;
  int greatest;
};

int read_sensor(void);

int mean(const struct window *window, int wanted) {
  int sum = 0;
  int count = 0;
  while (count < wanted) {
    int reading = read_sensor();
    if (pc_label(reading < window->least, 1, "below"), pc_label(reading > window->greatest, 2, "above"),
        reading < window->least || reading > window->greatest)
      continue;
    pc_label(count > 0 && (sum < 0) != (reading < 0), 3, "signs-mix");
    sum += reading;
    count++;
  }
  pc_label(count == 1, 4, "one");
  pc_label(sum < 0, 5, "negative");
  return sum / count;
}
