/* The day of the year of a date in the Gregorian calendar, or 0 where there is no such date. */
static const int days_of[12] = {31, 28, 31, 30, 31, 30, 31, 31, 30, 31, 30, 31};

static int is_leap(int year) {
  pc_label(year % 400 == 0, 1, "leap-century");
  pc_label(year % 100 == 0 && year % 400 != 0, 2, "century");
  pc_label(year % 4 == 0 && year % 100 != 0, 3, "leap");
  return year % 4 == 0 && (year % 100 != 0 || year % 400 == 0);
}

static int days_in(int year, int month) {
  if (month == 2 && is_leap(year))
    return 29;
  return days_of[month - 1];
}

int day_of_year(int year, int month, int day) {
  int before = 0;
  int m;
  pc_label(month < 1, 4, "month-below");
  pc_label(month > 12, 5, "month-above");
  if (month < 1 || month > 12)
    return 0;
  if (day < 1 || day > days_in(year, month)) {
    pc_label(month == 2 && day == 29, 6, "no-29-february");
    return 0;
  }
  for (m = 1; m < month; m++)
    before += days_in(year, m);
  pc_label(before + day == 366, 7, "day-366");
  return before + day;
}
