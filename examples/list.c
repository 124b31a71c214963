// A list of the bytes of the input, made by malloc: it is written out backwards and freed.
int getchar(void);
int putchar(int c);
void *malloc(unsigned long size);
void free(void *p);

struct node {
  struct node *next;
  int byte;
};

int main(void) {
  struct node *list = 0;
  for (int c = getchar(); c >= 0; c = getchar()) {
    struct node *node = malloc(sizeof *node);
    if (!node)
      return 1;
    node->next = list;
    node->byte = c;
    list = node;
  }
  int count = 0;
  while (list) {
    struct node *next = list->next;
    putchar(list->byte);
    free(list);
    list = next;
    count++;
  }
  return count;
}
