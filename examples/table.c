// Looks the bytes of the input up in a table of days, and writes the sum of the days of the months that they name.
int getchar(void);
int putchar(int c);

static const char days[12] = {31, 28, 31, 30, 31, 30, 31, 31, 30, 31, 30, 31};

int main(void) {
  int sum = 0;
  for (int c = getchar(); c >= 0; c = getchar()) {
    int month = c - 'a';
    if (month < 0 || month >= 12)
      return 255;
    sum += days[month];
  }
  putchar(sum);
  return 0;
}
