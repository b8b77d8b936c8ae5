#include "pool.h"

#include <stdint.h>
#include <string.h>

/* Blocks have room for 32 bytes, 64, and so on up to 2^19; a larger one is taken from the C library each time. In front
   of a block stands its class. */
enum { CLASSES = 15, SMALLEST = 32, LARGER = CLASSES, CHUNK = 1 << 20 };

union head {
  struct {
    size_t class, count; /* and for how many bytes a larger block has room */
  } used;
  union head *next; /* of a block that is free */
};

void *__real_malloc(size_t count);
void __real_free(void *block);
void *__wrap_malloc(size_t count);
void __wrap_free(void *block);
void *__wrap_realloc(void *block, size_t count);

static union head *free_blocks[CLASSES];
static uint8_t *chunk;
static size_t left, blocks;

size_t pool_blocks(void) { return blocks; }

static size_t room_of(size_t class) { return (size_t)SMALLEST << class; }

static size_t class_for(size_t count) {
  if (count <= SMALLEST)
    return 0;
  size_t class = (size_t)(59 - __builtin_clzl(count - 1));
  return class < CLASSES ? class : LARGER;
}

/* A block of the class that was never used, from a piece of memory that is never given back. */
static union head *new_block(size_t class) {
  size_t size = sizeof(union head) + room_of(class);
  if (left < size) {
    chunk = __real_malloc(CHUNK);
    left = chunk == NULL ? 0 : CHUNK;
  }
  if (left < size)
    return NULL;
  left -= size;
  return (union head *)(chunk + left);
}

void *__wrap_malloc(size_t count) {
  size_t class = class_for(count);
  union head *head;
  if (class == LARGER) {
    head = __real_malloc(sizeof *head + count);
  } else if ((head = free_blocks[class]) != NULL) {
    free_blocks[class] = head->next;
  } else {
    head = new_block(class);
  }
  if (head == NULL)
    return NULL;
  head->used.class = class;
  head->used.count = class == LARGER ? count : room_of(class);
  blocks++;
  return head + 1;
}

void __wrap_free(void *block) {
  if (block == NULL)
    return;
  union head *head = (union head *)block - 1;
  size_t class = head->used.class;
  blocks--;
  if (class == LARGER) {
    __real_free(head);
  } else {
    head->next = free_blocks[class];
    free_blocks[class] = head;
  }
}

void *__wrap_realloc(void *block, size_t count) {
  if (block == NULL)
    return __wrap_malloc(count);
  size_t room = ((union head *)block - 1)->used.count;
  if (count <= room)
    return block;
  void *moved = __wrap_malloc(count);
  if (moved != NULL) {
    memcpy(moved, block, room);
    __wrap_free(block);
  }
  return moved;
}
