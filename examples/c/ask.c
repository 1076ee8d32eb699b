/* Asks a daemon over TCP whether a principal may do something: ask HOST PORT PRINCIPAL; 0 yes, 1 no, 2 an error. */
#include <netdb.h>
#include <stdio.h>
#include <string.h>
#include <sys/socket.h>
#include <unistd.h>

static FILE *in, *out;

static int dial(const char *host, const char *port)
{
    struct addrinfo hints = {.ai_socktype = SOCK_STREAM}, *all, *it;
    int fd = -1;
    if (getaddrinfo(host, port, &hints, &all))
        return -1;
    for (it = all; it && fd < 0; it = it->ai_next) {
        fd = socket(it->ai_family, it->ai_socktype, it->ai_protocol);
        if (fd >= 0 && connect(fd, it->ai_addr, it->ai_addrlen)) {
            close(fd);
            fd = -1;
        }
    }
    freeaddrinfo(all);
    if (fd < 0 || !(in = fdopen(fd, "r")) || !(out = fdopen(dup(fd), "w")))
        return -1;
    return 0;
}

/* Sends one line, and reads the first line of its reply: 0, or -1 where the link has ended. */
static int ask(const char *word, const char *rest, char *reply, int size)
{
    fprintf(out, "%s%s\n", word, rest);
    return fflush(out) || !fgets(reply, size, in) ? -1 : 0;
}

int main(int count, char **words)
{
    char reply[256];
    int index;
    /* an end of line would end the request, and what follows it would be another one */
    if (count != 4 || strpbrk(words[3], "\r\n") || dial(words[1], words[2]))
        return 2;
    if (ask("OPEN", "", reply, sizeof reply) || strncmp(reply, "OK 1 ", 5) ||
        ask("AUTH 1 ", words[3], reply, sizeof reply) || strcmp(reply, "OK\n") ||
        ask("QUERY 1 no,yes", "", reply, sizeof reply) || sscanf(reply, "VALUE %d ", &index) != 1)
        return 2; /* a refusal, out of memory, or no reply: never take one for a yes */
    printf("%s\n", index >= 1 ? "yes" : "no");
    return index >= 1 ? 0 : 1;
}
