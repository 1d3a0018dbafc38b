/* Names that a hash map sends to one place: the hash of a name is SipHash-1-3 of its four bytes, lowest
   first, with both keys 0, folded to 32 bits, and a map looks from the group on that the hash's lowest
   bits number. To be loaded by python; it calls nothing. */

typedef unsigned long word;

static word turned(word value, int by)
{
    return value << by | value >> (64 - by);
}

static void mix(word v[4])
{
    v[0] += v[1];
    v[2] += v[3];
    v[1] = turned(v[1], 13) ^ v[0];
    v[3] = turned(v[3], 16) ^ v[2];
    v[0] = turned(v[0], 32);
    v[2] += v[1];
    v[0] += v[3];
    v[1] = turned(v[1], 17) ^ v[2];
    v[3] = turned(v[3], 21) ^ v[0];
    v[2] = turned(v[2], 32);
}

unsigned int hash_of(unsigned int name)
{
    word v[4] = {0x736f6d6570736575, 0x646f72616e646f6d, 0x6c7967656e657261, 0x7465646279746573};
    word last = (word)4 << 56 | name, hash;
    v[3] ^= last;
    mix(v);
    v[0] ^= last;
    v[2] ^= 0xff;
    mix(v);
    mix(v);
    mix(v);
    hash = v[0] ^ v[1] ^ v[2] ^ v[3];
    return (unsigned int)(hash ^ hash >> 32);
}

/* Fills in names, from the lowest on, whose hash has only zeros where the mask has ones. */
unsigned int fill(unsigned int *names, unsigned int count, unsigned int mask)
{
    unsigned int found = 0, name;
    for (name = 0; name < ~0U && found < count; name++)
        if ((hash_of(name) & mask) == 0)
            names[found++] = name;
    return found;
}
