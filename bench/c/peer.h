/* A program of one library, which reads messages of files as often as it is asked to. */
#ifndef PEER_H
#define PEER_H

#include <stddef.h>
#include <stdint.h>

/* Answers a count of what the octets were read as; 0 where they were refused. */
typedef size_t (*peer_call)(const uint8_t *octets, size_t len);

/* What a library does, by the names that src/peers.rs asks for: certificate, revoked, walk, signed, status. */
struct peer_does {
    const char *name;
    peer_call call;
};

/* The calls of the library; the last has no name. */
extern const struct peer_does peer_does_all[];

#endif
