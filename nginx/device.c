/* A device for tests and measures, over HTTP: device PORT SLOTS MICROSECONDS [MORE]. It serves SLOTS requests at once, each for so long,
 * and for MORE microseconds for each 4 KiB of its body, in the order in which they come, and answers each with "ok". Each connection has a
 * thread. A slot is busy by the clock: who wakes late does not make the device slower. */
#define _GNU_SOURCE
#include <arpa/inet.h>
#include <errno.h>
#include <netinet/tcp.h>
#include <pthread.h>
#include <stdint.h>
#include <stdio.h>
#include <stdlib.h>
#include <string.h>
#include <time.h>
#include <unistd.h>

#define SECOND 1000000000u
#define MOST_SLOTS 1024

static pthread_mutex_t lock = PTHREAD_MUTEX_INITIALIZER;
static uint64_t free_at[MOST_SLOTS]; /* when each slot is free */
static unsigned slots;
static uint64_t service, more;       /* nanoseconds of a request, and of each 4 KiB of its body */

static uint64_t now(void)
{
  struct timespec time;
  clock_gettime(CLOCK_MONOTONIC, &time);
  return (uint64_t)time.tv_sec * SECOND + (uint64_t)time.tv_nsec;
}

/* Takes the slot that is free first, and returns when it has served a request with a body of this length. */
static uint64_t take_slot(size_t body)
{
  unsigned first = 0;
  pthread_mutex_lock(&lock);
  uint64_t start = now();
  for (unsigned slot = 1; slot < slots; slot++)
    if (free_at[slot] < free_at[first])
      first = slot;
  uint64_t end = (free_at[first] > start ? free_at[first] : start) + service + (body + 4095) / 4096 * more;
  free_at[first] = end;
  pthread_mutex_unlock(&lock);
  return end;
}

static void wait_until(uint64_t end)
{
  struct timespec time = {.tv_sec = (time_t)(end / SECOND), .tv_nsec = (long)(end % SECOND)};
  while (clock_nanosleep(CLOCK_MONOTONIC, TIMER_ABSTIME, &time, NULL) == EINTR)
    ;
}

/* The length of the body that a head speaks of. */
static size_t body_length(const char *head)
{
  const char *field = strcasestr(head, "\r\ncontent-length:");
  return field ? strtoul(field + strlen("\r\ncontent-length:"), NULL, 10) : 0;
}

/* Reads a request, and the length of its body; what came behind it stays. False at the end of the connection. */
static int read_request(int socket, char *buffer, size_t room, size_t *held, size_t *body)
{
  size_t wanted = 0;
  for (;;) {
    buffer[*held] = 0;
    char *end = wanted ? NULL : strstr(buffer, "\r\n\r\n");
    if (end) {
      *body = body_length(buffer);
      wanted = (size_t)(end + 4 - buffer) + *body;
    }
    if (wanted && *held >= wanted)
      break;
    size_t gone = wanted && *held == room ? room / 2 : 0; /* of a long body, which nobody looks at */
    *held -= gone;
    wanted -= gone;
    ssize_t got = read(socket, buffer + *held, room - *held);
    if (got <= 0)
      return 0;
    *held += (size_t)got;
  }
  memmove(buffer, buffer + wanted, *held - wanted);
  *held -= wanted;
  return 1;
}

static void *serve(void *argument)
{
  static const char response[] = "HTTP/1.1 200 OK\r\nContent-Length: 3\r\nConnection: keep-alive\r\n\r\nok\n";
  enum { ROOM = 65536 };
  int socket = (int)(intptr_t)argument;
  char *buffer = malloc(ROOM + 1);
  size_t held = 0, body = 0;
  while (buffer && read_request(socket, buffer, ROOM, &held, &body)) {
    wait_until(take_slot(body));
    if (send(socket, response, sizeof response - 1, MSG_NOSIGNAL) < 0)
      break;
  }
  free(buffer);
  close(socket);
  return NULL;
}

static int listen_at(const char *port)
{
  struct sockaddr_in address = {.sin_family = AF_INET, .sin_port = htons((uint16_t)atoi(port)), .sin_addr.s_addr = htonl(INADDR_LOOPBACK)};
  int listener = socket(AF_INET, SOCK_STREAM, 0), yes = 1;
  setsockopt(listener, SOL_SOCKET, SO_REUSEADDR, &yes, sizeof yes);
  if (bind(listener, (struct sockaddr *)&address, sizeof address) == 0 && listen(listener, 1024) == 0)
    return listener;
  perror("device");
  exit(1);
}

int main(int count, char **words)
{
  slots = count == 4 || count == 5 ? (unsigned)atoi(words[2]) : 0;
  if (slots < 1 || MOST_SLOTS < slots) {
    fprintf(stderr, "device PORT SLOTS MICROSECONDS [MORE]\n");
    return 2;
  }
  service = strtoull(words[3], NULL, 10) * 1000;
  more = count == 5 ? strtoull(words[4], NULL, 10) * 1000 : 0;
  int listener = listen_at(words[1]), yes = 1;
  for (;;) {
    int socket = accept(listener, NULL, NULL);
    pthread_t thread;
    if (socket < 0)
      continue;
    setsockopt(socket, IPPROTO_TCP, TCP_NODELAY, &yes, sizeof yes);
    if (pthread_create(&thread, NULL, serve, (void *)(intptr_t)socket) == 0)
      pthread_detach(thread);
    else
      close(socket);
  }
}
