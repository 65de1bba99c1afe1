// What `geocom loop` does, as a C programmer would write it without any of its promises: one thread holds both ends of a
// connection of this machine to itself, and each request is sent, read, answered, read back and told before the next.
#include <arpa/inet.h>
#include <netinet/tcp.h>
#include <stdio.h>
#include <stdlib.h>
#include <string.h>
#include <sys/socket.h>
#include <unistd.h>

static int checked(int result)
{
    if (result < 0) {
        perror("exchanges");
        exit(1);
    }
    return result;
}

int main(int words, char **word)
{
    long count = words > 1 ? atol(word[1]) : 1000;
    struct sockaddr_in here = {.sin_family = AF_INET, .sin_addr.s_addr = htonl(INADDR_LOOPBACK)};
    socklen_t size = sizeof here;
    int yes = 1, listener = checked(socket(AF_INET, SOCK_STREAM, 0));
    checked(bind(listener, (struct sockaddr *)&here, size));
    checked(listen(listener, 1));
    checked(getsockname(listener, (struct sockaddr *)&here, &size));
    int near = checked(socket(AF_INET, SOCK_STREAM, 0));
    checked(connect(near, (struct sockaddr *)&here, size));
    int far = checked(accept(listener, NULL, NULL));
    setsockopt(near, IPPROTO_TCP, TCP_NODELAY, &yes, sizeof yes);
    setsockopt(far, IPPROTO_TCP, TCP_NODELAY, &yes, sizeof yes);
    for (long k = 0; k < count; k++) {
        char line[256], told[256];
        unsigned rpc, id;
        int n = snprintf(line, sizeof line, "%%R1Q,5003,%ld:\r\n", k % 8);
        checked(write(near, line, n));
        n = checked(read(far, line, sizeof line - 1));
        line[n] = 0;
        if (sscanf(line, "%%R1Q,%u,%u:", &rpc, &id) != 2 || rpc != 5003)
            return 1;
        n = snprintf(line, sizeof line, "%%R1P,0,%u:0,123456\r\n", id);
        checked(write(far, line, n));
        n = checked(read(near, line, sizeof line - 1));
        line[n] = 0;
        if (sscanf(line, "%%R1P,0,%u:", &id) != 1 || id != k % 8)
            return 1;
        n = snprintf(told, sizeof told, "%ld 7 answered %.*s\n", k, n - 2, line);
        checked(write(1, told, n));
    }
    return 0;
}
