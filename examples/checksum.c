// Adler's checksum of the input, with small numbers: its low byte is the status, and `+` is written where it is 42.
int getchar(void);
int putchar(int c);

static unsigned mixed(unsigned sums, unsigned byte) {
  unsigned low = (sums & 255) + byte;
  if (low >= 251)
    low -= 251;
  unsigned high = (sums >> 8) + low;
  if (high >= 251)
    high -= 251;
  return high << 8 | low;
}

int main(void) {
  unsigned sums = 1;
  for (int c = getchar(); c >= 0; c = getchar())
    sums = mixed(sums, (unsigned)c);
  unsigned check = (sums >> 8 ^ sums) & 255;
  if (check == 42)
    putchar('+');
  return (int)check;
}
