// Reads a sum of digits, as 1+2+3, and gives its value; 200 where the input is none.
int getchar(void);

static int next;

static int digit(void) {
  if (next < '0' || next > '9')
    return -1;
  int value = next - '0';
  next = getchar();
  return value;
}

static int sum(void) {
  int value = digit();
  while (value >= 0 && next == '+') {
    next = getchar();
    int more = digit();
    if (more < 0)
      return -1;
    value += more;
  }
  return value;
}

int main(void) {
  next = getchar();
  int value = sum();
  return value < 0 || next >= 0 ? 200 : value;
}
