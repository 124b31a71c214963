// Sorts the input by fours of bytes and writes them out; the status says how many exchanges there were.
int getchar(void);
int putchar(int c);

static int filled(unsigned char *bytes) {
  int count = 0;
  while (count < 4) {
    int c = getchar();
    if (c < 0)
      break;
    bytes[count++] = (unsigned char)c;
  }
  return count;
}

static int sorted(unsigned char *bytes, int count) {
  int exchanges = 0;
  for (int end = count; end > 1; end--) {
    for (int k = 1; k < end; k++) {
      if (bytes[k - 1] > bytes[k]) {
        unsigned char other = bytes[k];
        bytes[k] = bytes[k - 1];
        bytes[k - 1] = other;
        exchanges++;
      }
    }
  }
  return exchanges;
}

int main(void) {
  unsigned char bytes[4];
  int exchanges = 0;
  int count;
  do {
    count = filled(bytes);
    exchanges += sorted(bytes, count);
    for (int k = 0; k < count; k++)
      putchar(bytes[k]);
  } while (count == 4);
  return exchanges;
}
