/* client SOCKET KEYSYM..: types keysyms by a service (composecheck serve), and prints what becomes of each. */
#define _DEFAULT_SOURCE
#include <composecheck_client.h>
#include <stdio.h>
#include <stdlib.h>
#include <string.h>
#include <sys/socket.h>
#include <sys/un.h>
#include <unistd.h>

static int connected(const char *path) {
    struct sockaddr_un address = { .sun_family = AF_UNIX };
    strncpy(address.sun_path, path, sizeof address.sun_path - 1);
    int service = socket(AF_UNIX, SOCK_STREAM, 0);
    return connect(service, (struct sockaddr *) &address, sizeof address) == 0 ? service : -1;
}

int main(int count, char **words) {
    struct composecheck_client client = { 0 };
    struct composecheck_action action = { 0 };
    struct composecheck_answer answer;
    uint8_t byte;
    uint32_t number;
    size_t used;
    for (int i = 2, service = -1; i < count; i++) {
        composecheck_client_press(&client, (uint32_t) strtoul(words[i], NULL, 0), &action);
        while (action.kind == COMPOSECHECK_CONNECT || composecheck_client_waits(&client))
            if (action.kind == COMPOSECHECK_CONNECT && (close(service), service = connected(words[1])) >= 0 && getentropy(&number, sizeof number) == 0)
                composecheck_client_connected(&client, number, &action);
            else if (action.kind == COMPOSECHECK_SEND && send(service, action.bytes, action.byte_count, MSG_NOSIGNAL) > 0)
                action.kind = COMPOSECHECK_WAIT;
            else if (action.kind == COMPOSECHECK_WAIT && read(service, &byte, 1) == 1)
                composecheck_client_receive(&client, &byte, 1, &used, &action, &answer);
            else
                composecheck_client_lose(&client, &action);
        uint32_t verdict = action.kind == COMPOSECHECK_VERDICT ? action.verdict : COMPOSECHECK_PASS;
        int length = verdict == COMPOSECHECK_COMMIT ? (int) action.text_length : 0;
        printf("%s \"%.*s\"\n", ((const char *[]) { "pass", "take", "commit" })[verdict], length, (const char *) action.text);
    }
}
