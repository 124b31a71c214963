// Copies what stands between the first two quotes into a buffer of four bytes. The length isn't tested where the quoted text
// begins with `!`: the fifth byte is written past the buffer's end.
int getchar(void);
int putchar(int c);

int main(void) {
  char text[4];
  int count = 0;
  if (getchar() != '"')
    return 1;
  int first = getchar();
  for (int c = first; c != '"' && c >= 0; c = getchar()) {
    if (count == 4 && first != '!')
      return 2;
    text[count++] = (char)c;
  }
  for (int k = 0; k < count; k++)
    putchar(text[k]);
  return 0;
}
