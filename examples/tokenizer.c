// Tells the tokens of the input: a letter for each, `n` for a number, `w` for a word, `s` for spaces and `?` for other bytes.
int getchar(void);
int putchar(int c);

enum kind { NONE, NUMBER, WORD, SPACE, OTHER };

static enum kind kind_of(int c) {
  if (c >= '0' && c <= '9')
    return NUMBER;
  if (c >= 'a' && c <= 'z')
    return WORD;
  if (c == ' ')
    return SPACE;
  return OTHER;
}

static void tell(enum kind kind) {
  switch (kind) {
  case NUMBER:
    putchar('n');
    break;
  case WORD:
    putchar('w');
    break;
  case SPACE:
    putchar('s');
    break;
  case OTHER:
    putchar('?');
    break;
  default:
    break;
  }
}

int main(void) {
  enum kind last = NONE;
  int tokens = 0;
  for (int c = getchar(); c >= 0; c = getchar()) {
    enum kind kind = kind_of(c);
    if (kind != last || kind == OTHER) {
      tell(kind);
      tokens++;
    }
    last = kind;
  }
  return tokens;
}
