// A door with a lock: `o` opens it, `c` closes it, `l` locks and `u` unlocks it. The status is the state in which it ends.
int getchar(void);

enum state { CLOSED, OPEN, LOCKED, BROKEN };

static enum state after(enum state state, int c) {
  switch (state) {
  case CLOSED:
    switch (c) {
    case 'o':
      return OPEN;
    case 'l':
      return LOCKED;
    default:
      return CLOSED;
    }
  case OPEN:
    return c == 'c' ? CLOSED : c == 'l' ? BROKEN : OPEN;
  case LOCKED:
    return c == 'u' ? CLOSED : LOCKED;
  default:
    return BROKEN;
  }
}

int main(void) {
  enum state state = CLOSED;
  for (int c = getchar(); c >= 0; c = getchar())
    state = after(state, c);
  return state;
}
