/* Gives the name two.test two addresses, 127.0.0.2 and then 127.0.0.1. tests/play loads it in front of the C library. */

struct addrinfo {
    int flags, family, type, protocol;
    unsigned length;
    void *address;
    char *name;
    struct addrinfo *next;
};

typedef int lookup(const char *, const char *, const struct addrinfo *, struct addrinfo **);

void *dlsym(void *, const char *);
int strcmp(const char *, const char *);

int getaddrinfo(const char *node, const char *service, const struct addrinfo *hints, struct addrinfo **found)
{
    lookup *next = (lookup *)dlsym((void *)-1L, "getaddrinfo");
    struct addrinfo *last, *second;
    int fault;
    if (!node || strcmp(node, "two.test") != 0)
        return next(node, service, hints, found);
    fault = next("127.0.0.2", service, hints, found);
    if (fault == 0)
        fault = next("127.0.0.1", service, hints, &second);
    if (fault != 0)
        return fault;
    for (last = *found; last->next; last = last->next) {
    }
    last->next = second;
    return 0;
}
