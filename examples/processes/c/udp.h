/* Datagrams between the processes of one deck, on this machine alone. Each party of a packet has a port: the first port
 * plus the byte at 3 of a packet for it, which is k for node k and RP_TASK_PARTY + t for task t. A datagram is a mark of
 * eight bytes, of the deck's digest, and one packet: so a process does not take what another installation sends. */
#ifndef UDP_H
#define UDP_H

#include <arpa/inet.h>
#include <netinet/in.h>
#include <poll.h>
#include <stdint.h>
#include <stdio.h>
#include <stdlib.h>
#include <string.h>
#include <sys/socket.h>
#include <time.h>
#include <unistd.h>

#include "rp.h"

enum { MARK = 8, MOST_DATAGRAM = MARK + RP_STEP_BYTES, MOST_DECK = 1 << 20 };

/* A party's socket, the first port of those to which it sends, and the mark of its installation. */
struct link {
  int socket;
  int first_port;
  uint8_t mark[MARK];
};

static inline void stop(const char *why) {
  perror(why);
  exit(1);
}

static inline uint64_t milliseconds(void) {
  struct timespec now;
  clock_gettime(CLOCK_MONOTONIC, &now);
  return (uint64_t)now.tv_sec * 1000 + (uint64_t)now.tv_nsec / 1000000;
}

static inline struct sockaddr_in place_of(int port) {
  struct sockaddr_in place = {.sin_family = AF_INET, .sin_port = htons((uint16_t)port)};
  place.sin_addr.s_addr = htonl(INADDR_LOOPBACK);
  return place;
}

/* The bytes of a deck. */
static inline size_t read_deck(const char *name, uint8_t *deck) {
  FILE *file = fopen(name, "rb");
  if (file == NULL) stop(name);
  size_t count = fread(deck, 1, MOST_DECK, file);
  fclose(file);
  return count;
}

/* The socket of a party, which gets at first + party, and sends to `to` + the receiver. */
static inline struct link link_of(const uint8_t *header, int party, int first, int to) {
  struct link link = {socket(AF_INET, SOCK_DGRAM, 0), to, {0}};
  struct sockaddr_in here = place_of(first + party);
  int room = 1 << 22;
  setsockopt(link.socket, SOL_SOCKET, SO_RCVBUF, &room, sizeof room);
  if (link.socket < 0 || bind(link.socket, (struct sockaddr *)&here, sizeof here) != 0) stop("bind");
  memcpy(link.mark, header + MARK, MARK); /* the first bytes of the digest */
  return link;
}

/* Sends a packet to its receiver, which may lose it. */
static inline void send_packet(const struct link *link, const uint8_t *packet, size_t count) {
  uint8_t datagram[MOST_DATAGRAM];
  struct sockaddr_in to = place_of(link->first_port + packet[3]);
  memcpy(datagram, link->mark, MARK);
  memcpy(datagram + MARK, packet, count);
  (void)sendto(link->socket, datagram, MARK + count, 0, (struct sockaddr *)&to, sizeof to);
}

/* Waits for a datagram of this installation, at most so long. Returns how many bytes its packet has, which begins at
 * datagram + MARK; 0 if none came. */
static inline size_t receive_packet(const struct link *link, uint8_t *datagram, int most_ms) {
  struct pollfd ready = {link->socket, POLLIN, 0};
  if (poll(&ready, 1, most_ms) <= 0) return 0;
  ssize_t count = recv(link->socket, datagram, MOST_DATAGRAM, MSG_DONTWAIT);
  if (count <= MARK || memcmp(datagram, link->mark, MARK) != 0) return 0;
  return (size_t)count - MARK;
}

#endif
