#define _GNU_SOURCE
#include "serve.h"

#include <errno.h>
#include <poll.h>
#include <stdint.h>
#include <stdio.h>
#include <stdlib.h>
#include <string.h>
#include <sys/eventfd.h>
#include <sys/socket.h>
#include <sys/stat.h>
#include <time.h>
#include <unistd.h>

/* How long a reader may take to send its request, and then to read the text. Others wait meanwhile. */
#define REQUEST_MILLIS 500
#define READING_MILLIS 2000

#define PAUSE_MILLIS 100 /* before another try, if no descriptor is left */
#define NEVER INT64_MAX

/* ---- waits */

static int64_t now_millis(void)
{
  struct timespec time;
  clock_gettime(CLOCK_MONOTONIC, &time);
  return (int64_t)time.tv_sec * 1000 + time.tv_nsec / 1000000;
}

/* Waits until a socket is ready for events, until this time at most. False if it is not, or if all is to end. */
static bool await_socket(const struct served *served, int socket, short events, int64_t until)
{
  struct pollfd waited[2] = {{.fd = socket, .events = events}, {.fd = served->ends, .events = POLLIN}};
  int ready = 0;
  do {
    int64_t left = until == NEVER ? -1 : until - now_millis();
    if (until != NEVER && left <= 0)
      return false;
    ready = poll(waited, 2, (int)left);
  } while (ready == -1 && errno == EINTR);
  return ready > 0 && !waited[1].revents;
}

/* Whether a call on a socket did not fail for good. */
static bool is_passing(ssize_t result)
{
  return result >= 0 || errno == EAGAIN || errno == EINTR;
}

/* ---- readers */

/* Whether a request ends in a part of it, by an empty line. The line that it begins in has so many characters already. */
static bool has_end(const char *part, ssize_t size, size_t *length)
{
  for (ssize_t at = 0; at < size; at++) {
    if (part[at] == '\n' && *length == 0)
      return true;
    *length = part[at] == '\n' ? 0 : *length + (part[at] != '\r');
  }
  return false;
}

/* Reads a request. What it asks for does not matter, and a reader that sends none, or half of one, gets the text too. */
static void skip_request(const struct served *served, int reader)
{
  char part[1024];
  size_t length = 0;
  int64_t until = now_millis() + REQUEST_MILLIS;
  while (await_socket(served, reader, POLLIN, until)) {
    ssize_t size = recv(reader, part, sizeof part, 0);
    if (size == 0 || !is_passing(size) || has_end(part, size, &length))
      return;
  }
}

/* Returns whether all of it is sent in time. */
static bool send_text(const struct served *served, int reader, const char *text, size_t length, int64_t until)
{
  while (length && await_socket(served, reader, POLLOUT, until)) {
    ssize_t size = send(reader, text, length, MSG_NOSIGNAL);
    if (!is_passing(size))
      return false;
    if (size > 0) {
      text += size;
      length -= (size_t)size;
    }
  }
  return !length;
}

static void serve_reader(const struct served *served, int reader)
{
  char head[160];
  size_t length = 0;
  skip_request(served, reader);
  char *text = served->text(&length);
  int size = snprintf(head, sizeof head,
                      "HTTP/1.0 %s\r\nContent-Type: text/plain; version=0.0.4\r\nContent-Length: %zu\r\nConnection: close\r\n\r\n",
                      text ? "200 OK" : "503 Service Unavailable", text ? length : 0);
  int64_t until = now_millis() + READING_MILLIS;
  if (send_text(served, reader, head, (size_t)size, until) && text)
    send_text(served, reader, text, length, until);
  free(text);
}

/* One reader after the other, so that a crowd of them takes the memory of one text. */
static void *serve_all(void *argument)
{
  const struct served *served = argument;
  while (await_socket(served, served->socket, POLLIN, NEVER)) {
    int reader = accept4(served->socket, NULL, NULL, SOCK_CLOEXEC | SOCK_NONBLOCK);
    if (reader == -1) {
      await_socket(served, -1, 0, now_millis() + PAUSE_MILLIS);
      continue;
    }
    serve_reader(served, reader);
    close(reader);
  }
  return NULL;
}

/* ---- the start and the end */

/* Whether nobody listens at a socket: 0, or an errno. */
static int try_unused(const struct sockaddr_un *address)
{
  int probe = socket(AF_UNIX, SOCK_STREAM | SOCK_CLOEXEC | SOCK_NONBLOCK, 0);
  if (probe == -1)
    return errno;
  int result = connect(probe, (const struct sockaddr *)address, sizeof *address);
  int fault = result == 0 || errno == EAGAIN ? EADDRINUSE : errno == ECONNREFUSED ? 0 : errno;
  close(probe);
  return fault;
}

/* Makes room for a socket. Nothing but a socket that nobody listens at is removed. */
static const char *make_room(const struct sockaddr_un *address)
{
  struct stat found;
  if (lstat(address->sun_path, &found) == -1)
    return errno == ENOENT ? NULL : strerror(errno);
  if (!S_ISSOCK(found.st_mode))
    return "there is something that is no socket";
  int fault = try_unused(address);
  if (!fault && unlink(address->sun_path) == -1)
    fault = errno;
  return fault == EADDRINUSE ? "another process listens there" : fault ? strerror(fault) : NULL;
}

/* Returns 0, or an errno, after which nothing is open. */
static int listen_at(struct served *served)
{
  served->socket = socket(AF_UNIX, SOCK_STREAM | SOCK_CLOEXEC | SOCK_NONBLOCK, 0);
  if (served->socket == -1)
    return errno;
  bool is_bound = bind(served->socket, (const struct sockaddr *)&served->address, sizeof served->address) == 0;
  if (is_bound && listen(served->socket, 16) == 0)
    return 0;
  int fault = errno;
  close(served->socket);
  if (is_bound)
    unlink(served->address.sun_path);
  return fault;
}

const char *serve_open(struct served *served, const char *path)
{
  served->address = (struct sockaddr_un){.sun_family = AF_UNIX};
  strncpy(served->address.sun_path, path, MOST_SOCKET_PATH);
  const char *reason = make_room(&served->address);
  int fault = reason ? 0 : listen_at(served);
  served->is_open = !reason && !fault;
  return fault ? strerror(fault) : reason;
}

int serve_start(struct served *served, char *(*text)(size_t *length))
{
  served->text = text;
  served->ends = eventfd(0, EFD_CLOEXEC);
  if (served->ends == -1)
    return errno;
  int fault = pthread_create(&served->thread, NULL, serve_all, served);
  served->has_thread = !fault;
  if (fault)
    close(served->ends);
  return fault;
}

void serve_close(struct served *served)
{
  if (!served->is_open)
    return;
  unlink(served->address.sun_path);
  if (served->has_thread) {
    eventfd_write(served->ends, 1);
    pthread_join(served->thread, NULL);
    close(served->ends);
  }
  close(served->socket);
  *served = (struct served){0};
}
