/* Sends a corpus to a storage SCP on one association, and prints the total seconds, and the seconds between the
   last byte of each object and its reply.
   client PORT CORPUS [COUNT [PIXELS]]  sends; the next store goes out after the reply to the last.
   client --file FILE CORPUS N         writes object N as a file instead. */
#define _GNU_SOURCE
#include "objects.h"
#include <arpa/inet.h>
#include <errno.h>
#include <netinet/in.h>
#include <netinet/tcp.h>
#include <stdlib.h>
#include <sys/socket.h>
#include <sys/uio.h>
#include <time.h>
#include <unistd.h>

static void die(const char *what) {
  fprintf(stderr, "client: %s: %s\n", what, errno ? strerror(errno) : "unexpected answer");
  exit(1);
}

static void read_all(int fd, unsigned char *bytes, size_t n) {
  int on = 1;
  while (n > 0) {
    /* A peer that sends a reply in two writes with Nagle's algorithm waits for this acknowledgement. */
    setsockopt(fd, IPPROTO_TCP, TCP_QUICKACK, &on, sizeof on);
    ssize_t got = read(fd, bytes, n);
    if (got <= 0) die("read");
    bytes += got;
    n -= (size_t)got;
  }
}

static void write_all(int fd, struct iovec *parts, int count) {
  while (count > 0) {
    ssize_t sent = writev(fd, parts, count);
    if (sent < 0) die("write");
    while (count > 0 && (size_t)sent >= parts->iov_len) {
      sent -= (ssize_t)parts->iov_len;
      parts++;
      count--;
    }
    if (count > 0) {
      parts->iov_base = (char *)parts->iov_base + sent;
      parts->iov_len -= (size_t)sent;
    }
  }
}

static size_t be32(unsigned char *p) { return ((size_t)p[0] << 24) | (p[1] << 16) | (p[2] << 8) | p[3]; }

static void put_be32(unsigned char *p, size_t n) {
  p[0] = (unsigned char)(n >> 24);
  p[1] = (unsigned char)(n >> 16);
  p[2] = (unsigned char)(n >> 8);
  p[3] = (unsigned char)n;
}

/* Receives a PDU of at most `room` bytes after its header; returns its length. */
static size_t read_pdu(int fd, unsigned char *kind, unsigned char *body, size_t room) {
  unsigned char head[6];
  read_all(fd, head, 6);
  size_t n = be32(head + 2);
  if (n > room) die("a PDU that is too long");
  read_all(fd, body, n);
  *kind = head[0];
  return n;
}

static size_t item(unsigned char *p, int kind, const char *text) {
  size_t n = strlen(text);
  p[0] = (unsigned char)kind;
  p[1] = 0;
  p[2] = (unsigned char)(n >> 8);
  p[3] = (unsigned char)n;
  memcpy(p + 4, text, n);
  return n + 4;
}

/* Opens the association, and returns the greatest P-DATA length that the peer accepts. */
static size_t associate(int fd, const char *syntax) {
  unsigned char body[4096], kind;
  memset(body, 0, 68);
  body[1] = 1;
  memset(body + 4, ' ', 32);
  memcpy(body + 4, "DCMBOX", 6);
  memcpy(body + 20, "BENCH", 5);
  size_t n = 68;
  n += item(body + n, 0x10, "1.2.840.10008.3.1.1.1");
  size_t context = n;
  n += 4;
  memcpy(body + n, "\1\0\0\0", 4);
  n += 4;
  n += item(body + n, 0x30, CT_CLASS);
  n += item(body + n, 0x40, syntax);
  body[context] = 0x20;
  body[context + 1] = 0;
  body[context + 2] = (unsigned char)((n - context - 4) >> 8);
  body[context + 3] = (unsigned char)(n - context - 4);
  size_t user = n;
  n += 4;
  memcpy(body + n, "\x51\0\0\4\0\0\x40\0", 8);
  n += 8;
  n += item(body + n, 0x52, "2.25.7003");
  body[user] = 0x50;
  body[user + 1] = 0;
  body[user + 2] = 0;
  body[user + 3] = (unsigned char)(n - user - 4);
  unsigned char head[6] = {1, 0};
  put_be32(head + 2, n);
  struct iovec parts[2] = {{head, 6}, {body, n}};
  write_all(fd, parts, 2);
  n = read_pdu(fd, &kind, body, sizeof body);
  if (kind != 2) die("the request was not accepted");
  size_t most = 0;
  for (size_t at = 68; at + 4 <= n;) {
    size_t length = (body[at + 2] << 8) | body[at + 3];
    if (body[at] == 0x21 && body[at + 6] != 0) die("the context was not accepted");
    if (body[at] == 0x50) {
      at += 4;
      continue;
    }
    if (body[at] == 0x51) most = be32(body + at + 4);
    at += 4 + length;
  }
  return most ? most : 1 << 20;
}

static size_t command_element(unsigned char *p, unsigned number, const void *value, size_t n) {
  memset(p, 0, 8);
  p[2] = (unsigned char)number;
  p[3] = (unsigned char)(number >> 8);
  p[4] = (unsigned char)n;
  memcpy(p + 8, value, n);
  return n + 8;
}

static size_t uid_element(unsigned char *p, unsigned number, const char *uid) {
  char padded[66] = {0};
  size_t n = strlen(uid);
  memcpy(padded, uid, n);
  return command_element(p, number, padded, n + n % 2);
}

static void send_command(int fd, const char *instance, unsigned message) {
  unsigned char set[512], head[12] = {4, 0};
  unsigned char id[2] = {(unsigned char)message, (unsigned char)(message >> 8)};
  size_t n = 12;
  n += uid_element(set + n, 0x0002, CT_CLASS);
  n += command_element(set + n, 0x0100, "\1\0", 2);
  n += command_element(set + n, 0x0110, id, 2);
  n += command_element(set + n, 0x0700, "\2\0", 2);
  n += command_element(set + n, 0x0800, "\1\0", 2);
  n += uid_element(set + n, 0x1000, instance);
  uint32_t length = (uint32_t)(n - 12);
  unsigned char counted[4] = {(unsigned char)length, (unsigned char)(length >> 8), 0, 0};
  command_element(set, 0, counted, 4);
  put_be32(head + 2, n + 6);
  put_be32(head + 6, n + 2);
  head[10] = 1;
  head[11] = 3;
  struct iovec parts[2] = {{head, 12}, {set, n}};
  write_all(fd, parts, 2);
}

/* Sends the data set in PDUs of at most `most` bytes. */
static void send_data(int fd, struct object *o, size_t most) {
  uint64_t left = o->head + o->pixels + o->tail, at = 0;
  while (left > 0) {
    size_t n = left < most - 6 ? (size_t)left : most - 6;
    unsigned char head[12] = {4, 0};
    put_be32(head + 2, n + 6);
    put_be32(head + 6, n + 2);
    head[10] = 1;
    head[11] = n == left ? 2 : 0;
    struct iovec parts[16] = {{head, 12}};
    int count = 1;
    left -= n;
    while (n > 0) {
      const unsigned char *bytes;
      size_t run = bytes_at(o, at, &bytes);
      run = run < n ? run : n;
      parts[count].iov_base = (void *)bytes;
      parts[count++].iov_len = run;
      at += run;
      n -= run;
    }
    write_all(fd, parts, count);
  }
}

/* Waits for the reply, and requires its status to be success. */
static void read_reply(int fd) {
  unsigned char body[4096], kind;
  size_t n = read_pdu(fd, &kind, body, sizeof body);
  if (kind != 4) die("no reply");
  for (size_t at = 6; at + 8 <= n;) {
    unsigned number = body[at + 2] | (body[at + 3] << 8);
    size_t length = body[at + 4] | (body[at + 5] << 8);
    if (number == 0x0900) {
      if (body[at + 8] != 0 || body[at + 9] != 0) die("a store was refused");
      return;
    }
    at += 8 + length;
  }
  die("a reply without status");
}

static int write_file(const char *name, struct object *o, const char *syntax) {
  FILE *file = fopen(name, "wb");
  if (!file) die(name);
  struct object meta;
  unsigned char zeros[128] = {0};
  meta.head = 0;
  put16(&meta, 2);
  put16(&meta, 1);
  put(&meta, "OB\0\0\2\0\0\0\0\1", 10);
  element(&meta, 2, 2, "UI", CT_CLASS, 0);
  element(&meta, 2, 3, "UI", o->instance, 0);
  element(&meta, 2, 0x10, "UI", syntax, 0);
  element(&meta, 2, 0x12, "UI", "2.25.7003", 0);
  unsigned char length[12] = {2, 0, 0, 0, 'U', 'L', 4, 0, (unsigned char)meta.head, (unsigned char)(meta.head >> 8), 0, 0};
  fwrite(zeros, 1, 128, file);
  fwrite("DICM", 1, 4, file);
  fwrite(length, 1, 12, file);
  fwrite(meta.bytes, 1, meta.head, file);
  const unsigned char *bytes;
  size_t n;
  for (uint64_t at = 0; (n = bytes_at(o, at, &bytes)) > 0; at += n) fwrite(bytes, 1, n, file);
  return fclose(file) == 0 ? 0 : 1;
}

static double seconds(const struct timespec *from, const struct timespec *to) {
  return (double)(to->tv_sec - from->tv_sec) + (double)(to->tv_nsec - from->tv_nsec) / 1e9;
}

int main(int argc, char **argv) {
  static struct object o;
  make_pattern();
  if (argc == 5 && strcmp(argv[1], "--file") == 0) {
    const struct corpus *c = corpus_of(argv[3]);
    if (!c) die("no such corpus");
    make_object(&o, (unsigned)atoi(argv[4]), c->pixels, c->kind);
    return write_file(argv[2], &o, c->syntax);
  }
  const struct corpus *c = argc >= 3 ? corpus_of(argv[2]) : NULL;
  if (!c) {
    fprintf(stderr, "usage: client PORT CORPUS [COUNT [PIXELS]] | client --file FILE CORPUS N\n");
    return 2;
  }
  unsigned count = argc >= 4 ? (unsigned)atoi(argv[3]) : c->count;
  uint64_t pixels = argc >= 5 ? strtoull(argv[4], NULL, 10) : c->pixels;
  int fd = socket(AF_INET, SOCK_STREAM, 0), on = 1;
  struct sockaddr_in to = {.sin_family = AF_INET, .sin_port = htons((uint16_t)atoi(argv[1]))};
  to.sin_addr.s_addr = htonl(INADDR_LOOPBACK);
  setsockopt(fd, IPPROTO_TCP, TCP_NODELAY, &on, sizeof on);
  struct timespec start, end;
  clock_gettime(CLOCK_MONOTONIC, &start);
  errno = 0;
  if (connect(fd, (struct sockaddr *)&to, sizeof to) != 0) die("connect");
  size_t most = associate(fd, c->syntax);
  double waited = 0;
  for (unsigned n = 0; n < count; n++) {
    make_object(&o, n, pixels, c->kind);
    send_command(fd, o.instance, n & 0xffff);
    send_data(fd, &o, most);
    struct timespec sent, answered;
    clock_gettime(CLOCK_MONOTONIC, &sent);
    read_reply(fd);
    clock_gettime(CLOCK_MONOTONIC, &answered);
    waited += seconds(&sent, &answered);
  }
  unsigned char release[10] = {5, 0, 0, 0, 0, 4}, kind, body[64];
  struct iovec part = {release, 10};
  write_all(fd, &part, 1);
  read_pdu(fd, &kind, body, sizeof body);
  if (kind != 6) die("no release");
  close(fd);
  clock_gettime(CLOCK_MONOTONIC, &end);
  printf("%.6f %.6f\n", seconds(&start, &end), waited);
  return 0;
}
