/* SPDX-License-Identifier: Apache-2.0 */
/*
 * A producer of arrays in every layout of Arrow's C Data Interface that the Python package reads, for its tests, which load
 * it as a shared object. Written from the specification (https://arrow.apache.org/docs/format/CDataInterface.html).
 *
 * A test hands over the buffers of an array and what its structs are to say; producer_make copies them into an ArrowSchema
 * and an ArrowArray of its own, or chains such arrays into a stream. Each release callback is counted.
 */
#include <stddef.h>
#include <stdint.h>
#include <stdlib.h>
#include <string.h>

struct ArrowSchema {
    const char *format;
    const char *name;
    const char *metadata;
    int64_t flags;
    int64_t n_children;
    struct ArrowSchema **children;
    struct ArrowSchema *dictionary;
    void (*release)(struct ArrowSchema *);
    void *private_data;
};

struct ArrowArray {
    int64_t length;
    int64_t null_count;
    int64_t offset;
    int64_t n_buffers;
    int64_t n_children;
    const void **buffers;
    struct ArrowArray **children;
    struct ArrowArray *dictionary;
    void (*release)(struct ArrowArray *);
    void *private_data;
};

struct ArrowArrayStream {
    int (*get_schema)(struct ArrowArrayStream *, struct ArrowSchema *);
    int (*get_next)(struct ArrowArrayStream *, struct ArrowArray *);
    const char *(*get_last_error)(struct ArrowArrayStream *);
    void (*release)(struct ArrowArrayStream *);
    void *private_data;
};

/* How often a release callback of the base structs was called, and how often one was called on a released struct. */
static int64_t schemas, arrays, streams, again;

int64_t producer_count(int which) {
    const int64_t counts[] = {schemas, arrays, streams, again};
    return counts[which];
}

/* What a schema owns, as it was made: a test may have changed its fields since. */
struct owned_schema {
    int64_t children;
    struct ArrowSchema **members;
    struct ArrowSchema *dictionary;
    char *format;
    char *name;
};

static void release_schema(struct ArrowSchema *schema) {
    if (schema->release == NULL) {
        again++;
        return;
    }
    struct owned_schema *owned = schema->private_data;
    for (int64_t i = 0; i < owned->children; i++) {
        if (owned->members[i]->release != NULL) owned->members[i]->release(owned->members[i]);
        free(owned->members[i]);
    }
    free(owned->members);
    if (owned->dictionary != NULL) {
        owned->dictionary->release(owned->dictionary);
        free(owned->dictionary);
    }
    free(owned->format);
    free(owned->name);
    free(owned);
    schema->release = NULL;
    schemas++;
}

/* What an array owns: its buffers, under the numbers that it was made with, which a test may have changed since. */
struct owned {
    int64_t buffers;
    int64_t children;
    void **held;
    const void **buffer_list;
    struct ArrowArray **members;
    struct ArrowArray *dictionary;
};

static void release_array(struct ArrowArray *array) {
    if (array->release == NULL) {
        again++;
        return;
    }
    struct owned *owned = array->private_data;
    for (int64_t i = 0; i < owned->buffers; i++) {
        /* Buffers that are read after a release are told from good ones. */
        free(owned->held[i]);
    }
    for (int64_t i = 0; i < owned->children; i++) {
        if (owned->members[i]->release != NULL) owned->members[i]->release(owned->members[i]);
        free(owned->members[i]);
    }
    if (owned->dictionary != NULL) {
        owned->dictionary->release(owned->dictionary);
        free(owned->dictionary);
    }
    free(owned->held);
    free(owned->members);
    free(owned->buffer_list);
    free(owned);
    array->release = NULL;
    arrays++;
}

/* A schema of a format and a name, without children and a dictionary. */
void producer_schema(struct ArrowSchema *schema, const char *format, const char *name) {
    memset(schema, 0, sizeof *schema);
    struct owned_schema *owned = calloc(1, sizeof *owned);
    schema->format = owned->format = strdup(format);
    schema->name = owned->name = name != NULL ? strdup(name) : NULL;
    schema->flags = 2;
    schema->private_data = owned;
    schema->release = release_schema;
}

/* An array of so many buffers, each copied; a buffer of a null pointer stays null. */
void producer_array(struct ArrowArray *array, int64_t length, int64_t null_count, int64_t offset, int64_t n_buffers,
                    const void *const *buffers, const size_t *sizes) {
    memset(array, 0, sizeof *array);
    struct owned *owned = calloc(1, sizeof *owned);
    array->length = length;
    array->null_count = null_count;
    array->offset = offset;
    array->n_buffers = n_buffers;
    array->buffers = owned->buffer_list = calloc((size_t)n_buffers + 1, sizeof *array->buffers);
    owned->buffers = n_buffers;
    owned->held = calloc((size_t)n_buffers + 1, sizeof *owned->held);
    for (int64_t i = 0; i < n_buffers; i++) {
        if (buffers[i] == NULL) continue;
        owned->held[i] = malloc(sizes[i] + 1);
        memcpy(owned->held[i], buffers[i], sizes[i]);
        array->buffers[i] = owned->held[i];
    }
    array->private_data = owned;
    array->release = release_array;
}

/* Moves an array and its schema into a parent, as its next child. */
void producer_adopt(struct ArrowSchema *schema, struct ArrowArray *array, struct ArrowSchema *child, struct ArrowArray *values) {
    struct owned *owned = array->private_data;
    struct owned_schema *owned_schema = schema->private_data;
    int64_t count = owned->children;
    schema->children = owned_schema->members = realloc(owned_schema->members, ((size_t)count + 1) * sizeof *schema->children);
    array->children = owned->members = realloc(owned->members, ((size_t)count + 1) * sizeof *array->children);
    schema->children[count] = malloc(sizeof *child);
    array->children[count] = malloc(sizeof *values);
    *schema->children[count] = *child;
    *array->children[count] = *values;
    child->release = NULL;
    values->release = NULL;
    schema->n_children = array->n_children = owned->children = owned_schema->children = count + 1;
}

/* Moves an array and its schema into another one, as its dictionary. */
void producer_index(struct ArrowSchema *schema, struct ArrowArray *array, struct ArrowSchema *child, struct ArrowArray *values) {
    struct owned *owned = array->private_data;
    struct owned_schema *owned_schema = schema->private_data;
    schema->dictionary = owned_schema->dictionary = malloc(sizeof *child);
    array->dictionary = owned->dictionary = malloc(sizeof *values);
    *schema->dictionary = *child;
    *array->dictionary = *values;
    child->release = NULL;
    values->release = NULL;
}

/* A stream of arrays that have been made, which fails at a place. */
struct queue {
    struct ArrowSchema schema;
    int64_t count;
    int64_t next;
    int64_t fails; /* the array whose get_next fails, -2 for get_schema, or -1 */
    struct ArrowArray *chunks;
};

static int queue_schema(struct ArrowArrayStream *stream, struct ArrowSchema *schema) {
    struct queue *queue = stream->private_data;
    if (queue->fails == -2) return 5;
    *schema = queue->schema;
    queue->schema.release = NULL;
    return 0;
}

static int queue_next(struct ArrowArrayStream *stream, struct ArrowArray *array) {
    struct queue *queue = stream->private_data;
    if (queue->next == queue->fails) return 22;
    if (queue->next == queue->count) {
        array->release = NULL;
        return 0;
    }
    *array = queue->chunks[queue->next];
    queue->chunks[queue->next++].release = NULL;
    return 0;
}

static const char *queue_error(struct ArrowArrayStream *stream) {
    (void)stream;
    return "the disk is on fire";
}

static void queue_release(struct ArrowArrayStream *stream) {
    if (stream->release == NULL) {
        again++;
        return;
    }
    struct queue *queue = stream->private_data;
    if (queue->schema.release != NULL) queue->schema.release(&queue->schema);
    for (int64_t i = 0; i < queue->count; i++)
        if (queue->chunks[i].release != NULL) queue->chunks[i].release(&queue->chunks[i]);
    free(queue->chunks);
    free(queue);
    stream->release = NULL;
    streams++;
}

/* Moves a schema and arrays into a stream. */
void producer_stream(struct ArrowArrayStream *stream, struct ArrowSchema *schema, struct ArrowArray *const *chunks, int64_t count, int64_t fails) {
    struct queue *queue = calloc(1, sizeof *queue);
    queue->schema = *schema;
    schema->release = NULL;
    queue->count = count;
    queue->fails = fails;
    queue->chunks = calloc((size_t)count + 1, sizeof *queue->chunks);
    for (int64_t i = 0; i < count; i++) {
        queue->chunks[i] = *chunks[i];
        chunks[i]->release = NULL;
    }
    stream->get_schema = queue_schema;
    stream->get_next = queue_next;
    stream->get_last_error = queue_error;
    stream->release = queue_release;
    stream->private_data = queue;
}
