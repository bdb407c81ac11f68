"""C texts of any size, on which the benches run."""

# The longest file that is read.
MOST = 4_194_304


def labels(first, count):
    """Statements and labels, about 41 bytes each."""
    return "".join(f'  x++; pc_label(x > {k}, {k}, "DC");\n' for k in range(first, first + count))


def one_function(count):
    return "int f(int x) {\n" + labels(1, count) + "  return x;\n}\n"


def many_functions(count):
    """A hundred labels in each, and an entry that calls them all."""
    numbers = range(count // 100)
    functions = "".join(f"int f{k}(int x) {{\n{labels(100 * k + 1, 100)}  return x;\n}}\n" for k in numbers)
    return functions + "int f(int x) {\n" + "".join(f"  f{k}(x);\n" for k in numbers) + "  return x;\n}\n"


# Each # stands for a number.
ORDINARY = """
/* What is left of a list of requests. */
struct request# { int count; struct request# *next; char name[8]; };

static const int costs#[4] = {1, 2, 3, #};

int left#(struct request# *list, int n) {
  int i, sum = 0;
  for (i = 0; i < n && list; i++) {
    switch (list->count % 4) {
      case 0: sum += costs#[i & 3]; break;
      case 1: sum -= list->name[i % 8]; break;
      default: sum ^= i << 2;
    }
    list = list->next;
  }
  if (sum < 0)
    return -sum;
  return n > 3 ? sum : left#(list, n - 1) + (int)sizeof "abc";
}
"""


def ordinary(size):
    parts = []
    while size > 0:
        parts.append(ORDINARY.replace("#", str(len(parts))))
        size -= len(parts[-1])
    return "".join(parts[:-1])
