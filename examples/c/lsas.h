/* LSAs that are made byte by byte (RFC 2328, A.4), with and without a fault. */
#ifndef LSAS_H
#define LSAS_H

#include <stddef.h>
#include <stdint.h>

/* The greatest number of bytes of an LSA. There is room for one more. */
enum { LONGEST = 65535 };

struct lsa {
    size_t length;
    uint8_t bytes[LONGEST + 1];
};

void put_number(uint8_t *at, uint32_t number);

/* Writes the length and, for 20 bytes or more, the checksum, so that no fault of these hides
 * another one. */
void seal(struct lsa *lsa);

/* Makes an LSA of 10.0.0.2 with the type, the Link State ID and the length. Its body is 0. */
struct lsa *begin_lsa(struct lsa *lsa, uint8_t type, uint32_t id, size_t length);

/* A router-LSA with a stub link to 192.0.2.0/24. */
struct lsa *router_lsa(struct lsa *lsa);

/* A network-LSA, a summary-LSA of either type, or an AS-external-LSA. */
struct lsa *other_lsa(struct lsa *lsa, uint8_t type);

#endif
