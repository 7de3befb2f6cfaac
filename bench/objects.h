/* The objects of the benchmark: deterministic data sets in Explicit VR Little Endian. */
#ifndef OBJECTS_H
#define OBJECTS_H
#include <stdint.h>
#include <stdio.h>
#include <string.h>

#define CT_CLASS "1.2.840.10008.5.1.4.1.1.2"
#define PATTERN 1048576
/* A fragment of encapsulated Pixel Data (PS3.5 section A.4), with its header, and the number of different ones. */
#define FRAGMENT 65536
#define FRAGMENTS (16 * (FRAGMENT + 8))
#define EMPTY_FRAGMENTS 65536

/* Pixel Data is native, or frames of a fragment each, or fragments without a byte. */
enum kind { NATIVE, FRAMES, EMPTY };

/* The bytes before the pixels of an object; the number of pixel bytes after them, from a repeated pattern, which includes
   headers of fragments; and the number of bytes of a final delimitation. */
struct object {
  char instance[65];
  size_t head;
  uint64_t pixels;
  const unsigned char *pattern;
  size_t period, tail;
  unsigned char bytes[4096];
};

static unsigned char pattern[PATTERN], fragments[FRAGMENTS], empty_fragments[EMPTY_FRAGMENTS];
static const unsigned char delimitation[8] = {0xfe, 0xff, 0xdd, 0xe0};

static inline void make_pattern(void) {
  static const unsigned char header[8] = {0xfe, 0xff, 0x00, 0xe0, 0, 0, FRAGMENT >> 16, 0};
  uint32_t x = 12345;
  for (size_t i = 0; i < PATTERN; i++) {
    x = x * 1664525u + 1013904223u;
    pattern[i] = (unsigned char)(x >> 24);
  }
  for (size_t i = 0; i < 16; i++) {
    memcpy(fragments + i * (FRAGMENT + 8), header, 8);
    memcpy(fragments + i * (FRAGMENT + 8) + 8, pattern + i * FRAGMENT, FRAGMENT);
  }
  for (size_t i = 0; i < EMPTY_FRAGMENTS; i += 8) memcpy(empty_fragments + i, header, 4);
}

/* Returns the bytes of an object from an offset, as far as they are contiguous; none at its end. */
static inline size_t bytes_at(const struct object *o, uint64_t at, const unsigned char **bytes) {
  if (at < o->head) {
    *bytes = o->bytes + at;
    return (size_t)(o->head - at);
  }
  at -= o->head;
  if (at < o->pixels) {
    size_t from = (size_t)(at % o->period), run = o->period - from;
    *bytes = o->pattern + from;
    return run < o->pixels - at ? run : (size_t)(o->pixels - at);
  }
  at -= o->pixels;
  *bytes = delimitation + at;
  return (size_t)(o->tail - at);
}

static inline void put16(struct object *o, unsigned n) {
  o->bytes[o->head++] = n & 255;
  o->bytes[o->head++] = n >> 8;
}

static inline void put32(struct object *o, uint32_t n) {
  put16(o, n & 65535);
  put16(o, n >> 16);
}

static inline void put(struct object *o, const void *bytes, size_t n) {
  memcpy(o->bytes + o->head, bytes, n);
  o->head += n;
}

static inline void element(struct object *o, unsigned group, unsigned number, const char *vr, const char *text, char pad) {
  size_t n = strlen(text);
  put16(o, group);
  put16(o, number);
  put(o, vr, 2);
  put16(o, (unsigned)(n + n % 2));
  put(o, text, n);
  if (n % 2) put(o, &pad, 1);
}

static inline void us(struct object *o, unsigned number, unsigned n) {
  put16(o, 0x28);
  put16(o, number);
  put(o, "US", 2);
  put16(o, 2);
  put16(o, n);
}

/* Writes nested sequences, each of undefined length with one item of undefined length, around one element. */
static inline void nested(struct object *o, int depth) {
  put16(o, 0x40);
  put16(o, 0x0275);
  put(o, "SQ\0\0", 4);
  put32(o, 0xffffffff);
  put16(o, 0xfffe);
  put16(o, 0xe000);
  put32(o, 0xffffffff);
  element(o, 0x40, 0x0007, "LO", "a scheduled procedure step", ' ');
  if (depth > 1) nested(o, depth - 1);
  put16(o, 0xfffe);
  put16(o, 0xe00d);
  put32(o, 0);
  put16(o, 0xfffe);
  put16(o, 0xe0dd);
  put32(o, 0);
}

/* Object number n; `tiny` has nested sequences and no pixels. */
static inline void make_object(struct object *o, unsigned n, uint64_t pixels, enum kind kind) {
  char text[65];
  o->head = 0;
  o->pixels = pixels;
  o->pattern = kind == NATIVE ? pattern : kind == FRAMES ? fragments : empty_fragments;
  o->period = kind == NATIVE ? PATTERN : kind == FRAMES ? FRAGMENTS : EMPTY_FRAGMENTS;
  o->tail = kind == NATIVE ? 0 : sizeof delimitation;
  snprintf(o->instance, sizeof o->instance, "2.25.7.%u", n);
  element(o, 8, 0x0008, "CS", "ORIGINAL\\PRIMARY\\AXIAL", ' ');
  element(o, 8, 0x0016, "UI", CT_CLASS, 0);
  element(o, 8, 0x0018, "UI", o->instance, 0);
  element(o, 8, 0x0020, "DA", "20260101", ' ');
  element(o, 8, 0x0030, "TM", "120000", ' ');
  element(o, 8, 0x0050, "SH", "A1", ' ');
  element(o, 8, 0x0060, "CS", "CT", ' ');
  element(o, 8, 0x1030, "LO", "A study", ' ');
  element(o, 0x10, 0x0010, "PN", "DOE^JOHN", ' ');
  element(o, 0x10, 0x0020, "LO", "P1", ' ');
  element(o, 0x18, 0x0050, "DS", "1.25", ' ');
  element(o, 0x20, 0x000d, "UI", "2.25.7001", 0);
  element(o, 0x20, 0x000e, "UI", "2.25.7002", 0);
  element(o, 0x20, 0x0010, "SH", "S1", ' ');
  element(o, 0x20, 0x0011, "IS", "1", ' ');
  snprintf(text, sizeof text, "%u", n + 1);
  element(o, 0x20, 0x0013, "IS", text, ' ');
  if (pixels == 0) {
    nested(o, 8);
    return;
  }
  us(o, 2, 1);
  element(o, 0x28, 4, "CS", "MONOCHROME2", ' ');
  if (kind != NATIVE) {
    snprintf(text, sizeof text, "%u", (unsigned)(pixels / (kind == FRAMES ? FRAGMENT + 8 : 8)));
    element(o, 0x28, 8, "IS", text, ' ');
  }
  us(o, 0x10, 512);
  us(o, 0x11, 512);
  us(o, 0x100, 16);
  us(o, 0x101, 12);
  us(o, 0x102, 11);
  us(o, 0x103, 0);
  put16(o, 0x7fe0);
  put16(o, 0x0010);
  put(o, kind == NATIVE ? "OW\0\0" : "OB\0\0", 4);
  put32(o, kind == NATIVE ? (uint32_t)pixels : 0xffffffff);
  /* An empty offset table. */
  if (kind != NATIVE) put(o, "\xfe\xff\0\xe0\0\0\0\0", 8);
}

/* The corpora: the number of objects, the bytes of pixels of each, and their transfer syntax. */
struct corpus {
  const char *name;
  unsigned count;
  uint64_t pixels;
  const char *syntax;
  enum kind kind;
};

static const struct corpus corpora[] = {
  {"ct", 200, 524288, "1.2.840.10008.1.2.1", NATIVE},
  {"large", 1, 160000000, "1.2.840.10008.1.2.1", NATIVE},
  {"frames", 1, 2441 * (FRAGMENT + 8), "1.2.840.10008.1.2.4.50", FRAMES},
  {"empty", 1, 8 * 1048576, "1.2.840.10008.1.2.4.50", EMPTY},
  {"tiny", 2000, 0, "1.2.840.10008.1.2.1", NATIVE},
};

static inline const struct corpus *corpus_of(const char *name) {
  for (size_t i = 0; i < sizeof corpora / sizeof corpora[0]; i++)
    if (strcmp(corpora[i].name, name) == 0) return &corpora[i];
  return NULL;
}
#endif
