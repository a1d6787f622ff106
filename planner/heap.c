/* The heap of the page's module: the three calls that the library makes of a heap, and `planner_room` for the structs that the page
 * passes. A block has a power of two of bytes. One that is given back is kept for the next request of its size; the memory grows
 * where there is none. It is trusted, as malloc is. */

typedef unsigned long word; /* 64 bits, as a pointer has */

/* What is before a block's bytes, and keeps them aligned to 16. */
struct block {
  word power;
  struct block *next; /* while it is kept */
};

/* What the library reads of a request: whether it was met, and where, which is never null. */
struct tried {
  word is_met;
  void *at;
};

enum { LEAST = 5, MOST = 40, PAGE = 16 };

extern char __heap_base[];
static char *top = __heap_base; /* everything from here on is unused */
static struct block *kept[MOST + 1];

static struct block *carve(word power)
{
  word end = (word)top + ((word)1 << power);
  word have = __builtin_wasm_memory_size(0) << PAGE;
  if (end > have && __builtin_wasm_memory_grow(0, ((end - have - 1) >> PAGE) + 1) == (word)-1)
    return 0;
  struct block *block = (struct block *)top;
  block->power = power;
  top = (char *)end;
  return block;
}

__attribute__((export_name("planner_room"))) void *planner_room(word bytes)
{
  word power = LEAST;
  while (((word)1 << power) - sizeof(struct block) < bytes)
    if (++power > MOST)
      return 0;
  struct block *block = kept[power];
  if (block)
    kept[power] = block->next;
  else
    block = carve(power);
  return block ? block + 1 : 0;
}

struct tried rattle_alloc(word bytes, word align)
{
  (void)align; /* it divides 16 */
  void *at = planner_room(bytes);
  return (struct tried){ at != 0, at ? at : __heap_base };
}

void rattle_dealloc(void *at)
{
  struct block *block = (struct block *)at - 1;
  block->next = kept[block->power];
  kept[block->power] = block;
}

struct tried rattle_realloc(void *at, word used, word bytes, word align)
{
  if (bytes <= ((word)1 << ((struct block *)at - 1)->power) - sizeof(struct block))
    return (struct tried){ 1, at };
  struct tried tried = rattle_alloc(bytes, align);
  if (tried.is_met) {
    __builtin_memcpy(tried.at, at, used);
    rattle_dealloc(at);
  }
  return tried;
}
