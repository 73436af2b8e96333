/* echo PATH: sends back what comes on one connection after another: one read of up to 4,096 bytes, and the write of it. */
#include <stdio.h>
#include <string.h>
#include <sys/socket.h>
#include <sys/un.h>
#include <unistd.h>

static int write_all(int descriptor, const unsigned char *bytes, ssize_t size) {
    while (size) {
        ssize_t sent = write(descriptor, bytes, size);
        if (sent <= 0)
            return 0;
        bytes += sent, size -= sent;
    }
    return 1;
}

int main(int count, char **words) {
    struct sockaddr_un address = {.sun_family = AF_UNIX};
    if (count != 2)
        return 2;
    strncpy(address.sun_path, words[1], sizeof address.sun_path - 1);
    int listener = socket(AF_UNIX, SOCK_STREAM, 0);
    if (bind(listener, (void *)&address, sizeof address) || listen(listener, 16))
        return 1;
    puts("listening");
    fflush(stdout);
    for (;;) {
        static unsigned char piece[4096];
        int connection = accept(listener, 0, 0);
        ssize_t size;
        while ((size = read(connection, piece, sizeof piece)) > 0 && write_all(connection, piece, size))
            ;
        close(connection);
    }
}
