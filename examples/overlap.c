/* Whether two bookings of a room overlap. Each lasts from a minute of the day up to another, which isn't in it any more. */
int overlap(int from, int to, int other_from, int other_to) {
  if (from >= to || other_from >= other_to)
    return 0;
  return from < other_to && other_from < to;
}
