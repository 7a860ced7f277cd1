/* SPDX-License-Identifier: MIT OR Apache-2.0 */
/* What ends Arrow's structs. Those that the Python package hands out are released in any thread, without the
 * interpreter's lock and after its end, so that Python can't do it. */
#include <stdint.h>
#include <stdlib.h>

struct schema {
  const char *format, *name, *metadata;
  int64_t flags, n_children;
  struct schema **children, *dictionary;
  void (*release)(struct schema *);
  void *private_data;
};

struct array {
  int64_t length, null_count, offset, n_buffers, n_children;
  const void **buffers;
  struct array **children, *dictionary;
  void (*release)(struct array *);
  void *private_data;
};

struct stream {
  void *get_schema, *get_next, *get_last_error;
  void (*release)(struct stream *);
  void *private_data;
};

/* Memory of zeros for a struct or its private data; null if there is none. */
void *arrow_new(size_t size) { return calloc(1, size); }

/* A struct of ours is released with its children, except those that a consumer has moved. What it points to, and the
 * structs of its children, are in its private data. */
#define RELEASES(kind) \
  void arrow_release_##kind(struct kind *it) { \
    for (int64_t i = 0; i < it->n_children; i++) \
      if (it->children[i]->release != NULL) it->children[i]->release(it->children[i]); \
    free(it->private_data); \
    it->release = NULL; \
  }
RELEASES(schema)
RELEASES(array)

/* Python's function that returns a capsule's context, which the package names when it is loaded. */
static void *(*context_of)(void *capsule);
void arrow_context_by(void *(*function)(void *)) { context_of = function; }

/* A capsule ends with the struct that is its context, which is released unless it is so already. */
#define ENDS(kind) \
  void arrow_end_##kind(void *capsule) { \
    struct kind *it = context_of(capsule); \
    if (it != NULL && it->release != NULL) it->release(it); \
    free(it); \
  }
ENDS(schema)
ENDS(array)
ENDS(stream)
