/* The baseline of the benchmark: replies to PDUs and writes each data set to a file of its own, without any checks.
   sink PORT FOLDER */
#define _GNU_SOURCE
#include <arpa/inet.h>
#include <fcntl.h>
#include <netinet/in.h>
#include <netinet/tcp.h>
#include <stdio.h>
#include <stdlib.h>
#include <string.h>
#include <sys/socket.h>
#include <unistd.h>

#define ROOM 65536
static unsigned char buffer[ROOM];
static size_t from, to;

static int fill(int fd) {
  int on = 1;
  setsockopt(fd, IPPROTO_TCP, TCP_QUICKACK, &on, sizeof on);
  ssize_t n = read(fd, buffer, ROOM);
  if (n <= 0) return 0;
  from = 0;
  to = (size_t)n;
  return 1;
}

static int read_exactly(int fd, unsigned char *bytes, size_t n) {
  while (n > 0) {
    if (from == to && !fill(fd)) return 0;
    size_t some = to - from < n ? to - from : n;
    memcpy(bytes, buffer + from, some);
    from += some;
    bytes += some;
    n -= some;
  }
  return 1;
}

/* Writes the rest of a fragment to the file directly from the buffer. */
static int pass(int fd, size_t n, int out) {
  while (n > 0) {
    if (from == to && !fill(fd)) return 0;
    size_t some = to - from < n ? to - from : n;
    if (write(out, buffer + from, some) != (ssize_t)some) return 0;
    from += some;
    n -= some;
  }
  return 1;
}

static size_t be32(unsigned char *p) { return ((size_t)p[0] << 24) | (p[1] << 16) | (p[2] << 8) | p[3]; }

static size_t be16(const unsigned char *p) { return ((size_t)p[0] << 8) | p[1]; }
static size_t le32(const unsigned char *p) { return ((size_t)p[3] << 24) | (p[2] << 16) | (p[1] << 8) | p[0]; }

/* Accepts each presentation context of the request of n bytes, with its first transfer syntax. */
static void answer_request(int fd, const unsigned char *body, size_t n) {
  static const unsigned char user[] = "\x50\0\0\x08\x51\0\0\x04\0\0\x40\0";
  static unsigned char text[ROOM];
  size_t to_send = 74;
  memset(text, 0, sizeof text);
  text[0] = 2;
  memcpy(text + 6, body, 68);
  for (size_t at = 68; at + 4 <= n; at += 4 + be16(body + at + 2)) {
    const unsigned char *item = body + at;
    if (item[0] == 0x10) {
      memcpy(text + to_send, item, 4 + be16(item + 2));
      to_send += 4 + be16(item + 2);
    }
    if (item[0] != 0x20) continue;
    size_t syntax = 8 + 4 + be16(item + 8 + 2), length = 4 + be16(item + syntax + 2);
    unsigned char answer[] = {0x21, 0, 0, (unsigned char)(4 + length), item[4], 0, 0, 0};
    memcpy(text + to_send, answer, 8);
    memcpy(text + to_send + 8, item + syntax, length);
    to_send += 8 + length;
  }
  memcpy(text + to_send, user, sizeof user - 1);
  to_send += sizeof user - 1;
  text[4] = (unsigned char)((to_send - 6) >> 8);
  text[5] = (unsigned char)(to_send - 6);
  if (write(fd, text, to_send) < 0) exit(1);
}

/* Returns the value of the Message ID, (0000,0110), in a command set of n bytes. */
static const unsigned char *message_id(const unsigned char *command, size_t n) {
  for (size_t at = 0; at + 10 <= n; at += 8 + le32(command + at + 4))
    if (memcmp(command + at, "\0\0\x10\1", 4) == 0) return command + at + 8;
  exit(1);
}

/* Sends the reply to a store: always success. */
static void reply(int fd, unsigned char context, const unsigned char *message) {
  static const unsigned char text[] =
    "\4\0\0\0\0\x4c\0\0\0\x48\1\3" "\0\0\0\0\4\0\0\0\x38\0\0\0" "\0\0\2\0\2\0\0\0\x31\0"
    "\0\0\0\1\2\0\0\0\1\x80" "\0\0\x20\1\2\0\0\0\0\0" "\0\0\0\x08\2\0\0\0\1\1" "\0\0\0\x09\2\0\0\0\0\0";
  unsigned char bytes[sizeof text - 1];
  memcpy(bytes, text, sizeof bytes);
  bytes[5] = (unsigned char)(sizeof bytes - 6);
  bytes[9] = (unsigned char)(sizeof bytes - 10);
  bytes[10] = context;
  memcpy(bytes + 52, message, 2);
  if (write(fd, bytes, sizeof bytes) < 0) exit(1);
}

int main(int argc, char **argv) {
  int listener = socket(AF_INET, SOCK_STREAM, 0), on = 1;
  struct sockaddr_in at = {.sin_family = AF_INET, .sin_port = htons((uint16_t)atoi(argc == 3 ? argv[1] : "0"))};
  at.sin_addr.s_addr = htonl(INADDR_LOOPBACK);
  setsockopt(listener, SOL_SOCKET, SO_REUSEADDR, &on, sizeof on);
  if (argc != 3 || chdir(argv[2]) != 0 || bind(listener, (struct sockaddr *)&at, sizeof at) != 0 || listen(listener, 5) != 0) {
    perror("sink");
    return 1;
  }
  unsigned files = 0;
  static unsigned char body[1 << 20];
  for (;;) {
    int fd = accept(listener, NULL, NULL), out = -1;
    setsockopt(fd, IPPROTO_TCP, TCP_NODELAY, &on, sizeof on);
    from = to = 0;
    unsigned char head[6], message[2] = {0};
    while (read_exactly(fd, head, 6)) {
      size_t n = be32(head + 2);
      if (head[0] != 4) {
        if (n > sizeof body || !read_exactly(fd, body, n)) break;
        if (head[0] == 1) answer_request(fd, body, n);
        if (head[0] == 5 && write(fd, "\6\0\0\0\0\4\0\0\0\0", 10) < 0) break;
        continue;
      }
      unsigned char pdv[6];
      if (!read_exactly(fd, pdv, 6)) break;
      n -= 6;
      if (pdv[5] & 1) {
        if (!read_exactly(fd, body, n)) break;
        memcpy(message, message_id(body, n), 2);
        char name[16];
        snprintf(name, sizeof name, "I%07u", ++files);
        out = open(name, O_WRONLY | O_CREAT | O_TRUNC, 0666);
        continue;
      }
      if (!pass(fd, n, out)) break;
      if (pdv[5] & 2) {
        close(out);
        reply(fd, pdv[4], message);
      }
    }
    close(fd);
  }
}
