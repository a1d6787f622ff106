/* A text for whoever connects to a Unix socket, behind the head of an HTTP response. */
#ifndef DMCLOCK_SERVE_H
#define DMCLOCK_SERVE_H

#include <pthread.h>
#include <stdbool.h>
#include <stddef.h>
#include <sys/un.h>

/* The longest path of a socket. */
#define MOST_SOCKET_PATH (sizeof ((struct sockaddr_un *)0)->sun_path - 1)

/* Starts as zeros. The fields are its own. */
struct served {
  struct sockaddr_un address;
  bool is_open, has_thread;
  int socket;
  int ends;                /* a descriptor that can be read once all is to end */
  pthread_t thread;
  char *(*text)(size_t *length);
};

/* Listens at a path. A socket that a former process left there is replaced. Returns NULL, or why it can't. */
const char *serve_open(struct served *, const char *path);

/* From now on a thread has the text made for each reader, and frees it; it is NULL if memory is short. Not before the process has forked
   for the last time. Returns 0, or an errno. */
int serve_start(struct served *, char *(*text)(size_t *length));

/* Ends that, and removes the socket. */
void serve_close(struct served *);

#endif
