/* Whether a text is a decimal number with an optional sign and fraction, by a state machine. */
enum state { START, SIGNED, WHOLE, POINT, FRACTION, FAILED };

static int is_digit(char c) { return c >= '0' && c <= '9'; }

static enum state next(enum state state, char c) {
  switch (state) {
    case START:
      if (c == '-' || c == '+')
        return SIGNED;
    case SIGNED:
      return is_digit(c) ? WHOLE : FAILED;
    case WHOLE:
      if (c == '.')
        return POINT;
      return is_digit(c) ? WHOLE : FAILED;
    case POINT:
    case FRACTION:
      return is_digit(c) ? FRACTION : FAILED;
    default:
      return FAILED;
  }
}

int is_number(const char *text) {
  enum state state = START;
  while (*text) {
    state = next(state, *text++);
    pc_label(state == SIGNED, 1, "signed");
    pc_label(state == WHOLE, 2, "whole");
    pc_label(state == POINT, 3, "point");
    pc_label(state == FRACTION, 4, "fraction");
    pc_label(state == FAILED, 5, "failed");
  }
  pc_label(state == START, 6, "empty");
  pc_label(state == POINT, 7, "ends-in-point");
  return state == WHOLE || state == FRACTION;
}
