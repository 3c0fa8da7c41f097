// Linked cells, tables, packed records and text: globals of every shape.
typedef unsigned long size;
struct cell { struct cell *next; long key; char name[9]; short rank; };
struct __attribute__((packed)) tight { char tag; int value; };
union word { long whole; char part[8]; };
static struct tight pairs[3] = {{1, -2}, {3, 4}, {0, 0}};
static struct cell last = {0, -5, "end\\", 3};
static struct cell first = {&last, 7, "a\"b\n", 1};
struct cell *list = &first;
const char *const words[] = {"one", "two", 0};
union word mixed = {.part = {1, 2, 3}};
int zeros[16];
long *into = (long *)&zeros[3];
_Bool flag = 1;
long total(void) { long s = 0; for (struct cell *c = list; c; c = c->next) s += c->key + c->name[1] + c->rank; return s; }
int packed(unsigned k) { return pairs[k % 3].value + pairs[0].tag; }
char letter(int i, int j) { return words[i & 1][j]; }
void set(struct cell *c, const struct cell *from) { *c = *from; c->rank = (short)(c->rank + 1); flag = !flag; }
