/* What the kernel allows, for beside-postgresql: a server that has the bytes of a stream ready, and only writes them.

   floor FILE   Listens at a free port of 127.0.0.1, which it prints, and sends the bytes of the file to each client that says
                START_REPLICATION. A client is served by a thread of its own, until it closes its connection. */
#include <arpa/inet.h>
#include <fcntl.h>
#include <netinet/tcp.h>
#include <pthread.h>
#include <stdio.h>
#include <stdlib.h>
#include <string.h>
#include <sys/mman.h>
#include <sys/socket.h>
#include <sys/stat.h>
#include <unistd.h>

static const unsigned char *stream;
static size_t stream_length;

static void fail(const char *why)
{
    fprintf(stderr, "floor: %s\n", why);
    exit(1);
}

static void map(const char *path)
{
    struct stat status;
    int file = open(path, O_RDONLY);
    if (file < 0 || fstat(file, &status) != 0)
        fail("the file can't be opened");
    stream_length = (size_t)status.st_size;
    stream = mmap(NULL, stream_length, PROT_READ, MAP_PRIVATE | MAP_POPULATE, file, 0);
    if (stream == MAP_FAILED)
        fail("the file can't be read");
}

static int read_all(int client, unsigned char *bytes, size_t count)
{
    while (count > 0) {
        ssize_t got = recv(client, bytes, count, 0);
        if (got <= 0)
            return 0;
        bytes += got;
        count -= (size_t)got;
    }
    return 1;
}

static int write_all(int client, const void *from, size_t count)
{
    const unsigned char *bytes = from;
    while (count > 0) {
        ssize_t sent = send(client, bytes, count, MSG_NOSIGNAL);
        if (sent <= 0)
            return 0;
        bytes += sent;
        count -= (size_t)sent;
    }
    return 1;
}

/* Reads a length that counts itself, and what it counts. */
static int read_body(int client, unsigned char *body, size_t room)
{
    unsigned char head[4];
    if (!read_all(client, head, 4))
        return 0;
    size_t length = (size_t)head[0] << 24 | (size_t)head[1] << 16 | (size_t)head[2] << 8 | head[3];
    if (length < 4 || length - 4 >= room)
        return 0;
    body[length - 4] = 0;
    return read_all(client, body, length - 4);
}

/* Answers the startup by AuthenticationOk and ReadyForQuery, a START_REPLICATION by CopyBothResponse and the stream, and passes over
   what else comes. */
static void *serve(void *socket)
{
    static const char ready[] = "R\0\0\0\x08\0\0\0\0Z\0\0\0\x05I", both[] = "W\0\0\0\x07\0\0";
    unsigned char body[1000], kind;
    int client = (int)(long)socket, one = 1;
    setsockopt(client, IPPROTO_TCP, TCP_NODELAY, &one, sizeof one);
    int goes_on = read_body(client, body, sizeof body) && write_all(client, ready, sizeof ready - 1);
    while (goes_on && read_all(client, &kind, 1) && read_body(client, body, sizeof body))
        if (kind == 'Q' && strncmp((char *)body, "START_REPLICATION", 17) == 0)
            goes_on = write_all(client, both, sizeof both) && write_all(client, stream, stream_length);
    close(client);
    return NULL;
}

int main(int count, char **words)
{
    struct sockaddr_in address = {.sin_family = AF_INET};
    socklen_t size = sizeof address;
    int listener = socket(AF_INET, SOCK_STREAM, 0);
    if (count != 2)
        fail("floor FILE");
    map(words[1]);
    address.sin_addr.s_addr = htonl(INADDR_LOOPBACK);
    if (bind(listener, (struct sockaddr *)&address, size) != 0 || listen(listener, 100) != 0)
        fail("no port");
    getsockname(listener, (struct sockaddr *)&address, &size);
    printf("listening 127.0.0.1:%d\n", ntohs(address.sin_port));
    fflush(stdout);
    for (;;) {
        pthread_t thread;
        int client = accept(listener, NULL, NULL);
        if (client < 0 || pthread_create(&thread, NULL, serve, (void *)(long)client) != 0)
            fail("a client can't be served");
        pthread_detach(thread);
    }
}
