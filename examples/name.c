/* Copies a name into a record. A name of eight characters has no room for its end, which a test finds: the store meets the age behind it. */
struct record {
  char name[8];
  int age;
};

int set_name(struct record *record, const char *name) {
  int length = 0;
  while (length < 8 && name[length]) {
    record->name[length] = name[length];
    length++;
  }
  pc_label(length == 0, 1, "empty");
  pc_label(length == 7, 2, "just-fits");
  pc_label(length == 8, 3, "too-long");
  record->name[length] = 0;
  pc_label(record->age != 0, 4, "age-stays");
  return length;
}
