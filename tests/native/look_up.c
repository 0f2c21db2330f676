// Prints the addresses of each name that it is given, a line for each: `look_up NAME..`.
#include <arpa/inet.h>
#include <netinet/in.h>
#include <stdint.h>
#include <stdio.h>
#include <string.h>
#include <sys/socket.h>

struct raw_address {
    unsigned char bytes[128];
    uint32_t length;
};
ssize_t rattle_lookup_host(const char *name, struct raw_address *found, size_t room);

static void show(const struct raw_address *address) {
    char text[INET6_ADDRSTRLEN];
    struct sockaddr_in four;
    struct sockaddr_in6 six;
    memcpy(&four, address->bytes, sizeof four);
    memcpy(&six, address->bytes, sizeof six);
    if (four.sin_family == AF_INET)
        printf(" %s", inet_ntop(AF_INET, &four.sin_addr, text, sizeof text));
    else
        printf(" %s", inet_ntop(AF_INET6, &six.sin6_addr, text, sizeof text));
    if (four.sin_family == AF_INET6 && six.sin6_scope_id)
        printf("%%%u", six.sin6_scope_id);
}

int main(int count, char **words) {
    static struct raw_address found[64];
    for (int i = 1; i < count; i++) {
        ssize_t addresses = rattle_lookup_host(words[i], found, 64);
        printf("%s:", words[i]);
        if (addresses <= 0)
            printf(" none");
        for (ssize_t at = 0; at < addresses; at++)
            show(&found[at]);
        printf("\n");
    }
}
