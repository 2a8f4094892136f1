#include "lsas.h"

#include <abr.h>

#include <string.h>

void put_number(uint8_t *at, uint32_t number)
{
    at[0] = (uint8_t)(number >> 24);
    at[1] = (uint8_t)(number >> 16);
    at[2] = (uint8_t)(number >> 8);
    at[3] = (uint8_t)number;
}

void seal(struct lsa *lsa)
{
    uint16_t sum;

    lsa->bytes[18] = (uint8_t)(lsa->length >> 8);
    lsa->bytes[19] = (uint8_t)lsa->length;
    if (!abr_lsa_sum(lsa->bytes, lsa->length, &sum))
        return;
    lsa->bytes[16] = (uint8_t)(sum >> 8);
    lsa->bytes[17] = (uint8_t)sum;
}

struct lsa *begin_lsa(struct lsa *lsa, uint8_t type, uint32_t id, size_t length)
{
    memset(lsa->bytes, 0, sizeof lsa->bytes);
    lsa->length = length;
    lsa->bytes[1] = 1;
    lsa->bytes[2] = 2;
    lsa->bytes[3] = type;
    put_number(&lsa->bytes[4], id);
    put_number(&lsa->bytes[8], 0x0a000002);
    put_number(&lsa->bytes[12], 0x80000001);
    return lsa;
}

struct lsa *router_lsa(struct lsa *lsa)
{
    begin_lsa(lsa, 1, 0x0a000002, 36);
    lsa->bytes[23] = 1;
    put_number(&lsa->bytes[24], 0xc0000200);
    put_number(&lsa->bytes[28], 0xffffff00);
    lsa->bytes[32] = 3;
    lsa->bytes[35] = 10;
    seal(lsa);
    return lsa;
}

struct lsa *other_lsa(struct lsa *lsa, uint8_t type)
{
    static const size_t LENGTHS[] = {0, 0, 32, 28, 28, 36};

    begin_lsa(lsa, type, 0xc0000200, LENGTHS[type]);
    put_number(&lsa->bytes[20], type == 4 ? 0 : 0xffffff00);
    seal(lsa);
    return lsa;
}
