/* Subscribers over bare sockets, for beside-postgresql.

   readers streams PORT NAP COMMITS SLOT..   Takes the stream of each slot up to so many Commits, on a thread of its own, and
                                             naps so many microseconds between two reads. It prints a line for each: when its
                                             START was sent and when the last Commit came, in seconds, the rows, and the bytes
                                             of all frames that carry a message.
   readers follow PORT BATCH SLOT..          Makes each slot and takes its stream, on a thread of its own, until the server ends it.
                                             After so many Commits it acknowledges the last.
   readers commits PORT COUNT SLOT PIPE      Lets a server that waits for a reader of its pipe commit COUNT times, or, where
                                             PIPE is -, commits by SQL. It prints a line for each: how many microseconds passed
                                             until the subscriber of the slot had the Commit. */
#include <arpa/inet.h>
#include <netinet/tcp.h>
#include <pthread.h>
#include <stdio.h>
#include <stdlib.h>
#include <string.h>
#include <sys/socket.h>
#include <time.h>
#include <unistd.h>

struct stream {
    int socket, refused;
    size_t held;
    long rows, wire, commits;
    unsigned char end[8]; /* of the last Commit */
    unsigned char bytes[1 << 16];
};

static int port;
static long nap, last_commit;
static pthread_barrier_t all_ready;

static void fail(const char *why)
{
    fprintf(stderr, "readers: %s\n", why);
    exit(1);
}

static double now(void)
{
    struct timespec time;
    clock_gettime(CLOCK_MONOTONIC, &time);
    return (double)time.tv_sec + (double)time.tv_nsec / 1e9;
}

static void sleep_for(long microseconds)
{
    struct timespec time = {0, microseconds * 1000};
    nanosleep(&time, NULL);
}

static size_t length_at(const unsigned char *bytes)
{
    return (size_t)bytes[0] << 24 | (size_t)bytes[1] << 16 | (size_t)bytes[2] << 8 | bytes[3];
}

static void send_all(struct stream *stream, const void *bytes, size_t count)
{
    if (send(stream->socket, bytes, count, 0) != (ssize_t)count)
        fail("a write failed");
}

static void send_query(struct stream *stream, const char *text)
{
    unsigned char frame[300] = "Q";
    size_t length = strlen(text) + 5;
    frame[3] = (unsigned char)(length >> 8);
    frame[4] = (unsigned char)length;
    memcpy(frame + 5, text, length - 4);
    send_all(stream, frame, length + 1);
}

static void read_more(struct stream *stream)
{
    ssize_t count = recv(stream->socket, stream->bytes + stream->held, sizeof stream->bytes - stream->held, 0);
    if (count <= 0)
        fail("the server ended the connection");
    stream->held += (size_t)count;
}

/* Takes the frames that are whole, and counts what they carry. It answers the last one that ends an answer: Z or W. */
static int take_frames(struct stream *stream)
{
    size_t at = 0, length;
    int ended = 0;
    while (stream->held - at >= 5 && stream->held - at >= 1 + (length = length_at(stream->bytes + at + 1))) {
        const unsigned char *frame = stream->bytes + at;
        if (frame[0] == 'd' && frame[5] == 'w') {
            stream->wire += 1 + (long)length;
            stream->rows += frame[30] == 'I';
            if (frame[30] == 'C') {
                stream->commits++;
                memcpy(stream->end, frame + 40, sizeof stream->end);
            }
        }
        if (frame[0] == 'E')
            stream->refused = 1;
        if (frame[0] == 'W' || frame[0] == 'Z')
            ended = frame[0];
        at += 1 + length;
    }
    stream->held -= at;
    memmove(stream->bytes, stream->bytes + at, stream->held);
    return ended;
}

/* Waits for the end of an answer. It is E where the answer is an error, whose end may come after it. */
static int wait_for_answer(struct stream *stream)
{
    int ended;
    stream->refused = 0;
    while ((ended = take_frames(stream)) == 0)
        read_more(stream);
    return stream->refused ? 'E' : ended;
}

static struct stream *connected(const char *startup, size_t length)
{
    struct stream *stream = calloc(1, sizeof *stream);
    struct sockaddr_in address = {.sin_family = AF_INET, .sin_port = htons((unsigned short)port)};
    int one = 1;
    address.sin_addr.s_addr = htonl(INADDR_LOOPBACK);
    stream->socket = socket(AF_INET, SOCK_STREAM, 0);
    if (connect(stream->socket, (struct sockaddr *)&address, sizeof address) != 0)
        fail("no connection");
    setsockopt(stream->socket, IPPROTO_TCP, TCP_NODELAY, &one, sizeof one);
    send_all(stream, startup, length);
    if (wait_for_answer(stream) != 'Z')
        fail("the startup was refused");
    return stream;
}

static struct stream *subscriber(void)
{
    static const char startup[] = "\0\0\0\x32\0\x03\0\0user\0u\0database\0app\0replication\0database\0";
    return connected(startup, sizeof startup);
}

static struct stream *session(void)
{
    static const char startup[] = "\0\0\0\x1d\0\x03\0\0user\0u\0database\0app\0";
    return connected(startup, sizeof startup);
}

/* Starts the stream of a slot, which may be in use for a moment after its last stream, and answers when it did. */
static double start(struct stream *stream, const char *slot)
{
    char command[200];
    snprintf(command, sizeof command,
        "START_REPLICATION SLOT %s LOGICAL 0/0 (proto_version '1', publication_names 'p')", slot);
    for (int tries = 0; tries < 1000; tries++) {
        double begun = now();
        send_query(stream, command);
        if (wait_for_answer(stream) == 'W')
            return begun;
        sleep_for(10000);
    }
    fail("the start was refused");
    return 0;
}

static void *take_stream(void *slot)
{
    struct stream *stream = subscriber();
    pthread_barrier_wait(&all_ready);
    double begun = start(stream, slot);
    take_frames(stream);
    while (stream->commits < last_commit) {
        if (nap > 0)
            sleep_for(nap);
        read_more(stream);
        take_frames(stream);
    }
    double ended = now();
    close(stream->socket);
    printf("%.6f %.6f %ld %ld\n", begun, ended, stream->rows, stream->wire);
    free(stream);
    return NULL;
}

static void ask(struct stream *stream, const char *query)
{
    send_query(stream, query);
    if (wait_for_answer(stream) != 'Z')
        fail("a query was refused");
}

static void acknowledge(struct stream *stream)
{
    unsigned char status[39] = "d\0\0\0\x26r";
    for (int field = 0; field < 3; field++)
        memcpy(status + 6 + 8 * field, stream->end, sizeof stream->end);
    send_all(stream, status, sizeof status);
}

static void *follow_stream(void *slot)
{
    struct stream *stream = subscriber();
    char command[200];
    snprintf(command, sizeof command, "CREATE_REPLICATION_SLOT %s LOGICAL pgoutput", (char *)slot);
    ask(stream, command);
    start(stream, slot);
    long acknowledged = 0;
    ssize_t count;
    while ((count = recv(stream->socket, stream->bytes + stream->held, sizeof stream->bytes - stream->held, 0)) > 0) {
        stream->held += (size_t)count;
        take_frames(stream);
        if (stream->commits - acknowledged >= last_commit) {
            acknowledge(stream);
            acknowledged = stream->commits - stream->commits % last_commit;
        }
    }
    close(stream->socket);
    free(stream);
    return NULL;
}

static void take_streams(void *(*take)(void *), int count, char **slots)
{
    pthread_t threads[count];
    pthread_barrier_init(&all_ready, NULL, (unsigned)count);
    for (int i = 0; i < count; i++)
        if (pthread_create(&threads[i], NULL, take, slots[i]) != 0)
            fail("no thread");
    for (int i = 0; i < count; i++)
        pthread_join(threads[i], NULL);
}

/* Has a pubd do lines, which it is told through a pipe, and waits until it has answered each. */
static void tell(int lines, const char *text)
{
    size_t length = strlen(text);
    if (write(lines, text, length) != (ssize_t)length)
        fail("a line could not be told");
}

static void wait_for_lines(int answers, int count)
{
    char answer[4096];
    while (count > 0) {
        ssize_t length = read(answers, answer, sizeof answer);
        if (length <= 0)
            fail("the answers ended");
        for (ssize_t i = 0; i < length; i++)
            count -= answer[i] == '\n';
    }
}

/* Who commits: a session of PostgreSQL, or the pipes of a pubd. */
struct writer {
    struct stream *session;
    int lines, answers;
};

static void insert(struct writer *writer, int n)
{
    char text[200];
    if (writer->session != NULL) {
        snprintf(text, sizeof text, "BEGIN; INSERT INTO item VALUES (%d, 'n%06d', %d)", n, n, 10 * n);
        ask(writer->session, text);
    } else {
        snprintf(text, sizeof text, "begin T\ninsert T public.item (%d,'n%06d',%d)\n", n, n, 10 * n);
        tell(writer->lines, text);
        wait_for_lines(writer->answers, 2);
    }
}

/* Microseconds from the word that lets the server commit until the subscriber has the Commit. */
static double commit_once(struct stream *subscriber, struct writer *writer)
{
    long before = subscriber->commits;
    double begun = now();
    if (writer->session != NULL)
        send_query(writer->session, "COMMIT");
    else
        tell(writer->lines, "commit T 0\n");
    while (subscriber->commits == before) {
        read_more(subscriber);
        take_frames(subscriber);
    }
    double ended = now();
    if (writer->session == NULL)
        wait_for_lines(writer->answers, 1);
    else if (wait_for_answer(writer->session) != 'Z')
        fail("a commit was refused");
    return (ended - begun) * 1e6;
}

static void time_commits(int count, const char *slot, const char *lines, const char *answers)
{
    struct writer writer = {strcmp(lines, "-") == 0 ? session() : NULL, atoi(lines), atoi(answers)};
    struct stream *stream = subscriber();
    start(stream, slot);
    for (int n = 1; n <= count; n++) {
        insert(&writer, n);
        printf("%.1f\n", commit_once(stream, &writer));
    }
}

int main(int count, char **words)
{
    if (count < 5)
        fail("readers streams PORT NAP COMMITS SLOT.. | readers follow PORT BATCH SLOT.. | readers commits PORT COUNT SLOT LINES ANSWERS");
    port = atoi(words[2]);
    nap = atol(words[3]);
    last_commit = atol(words[strcmp(words[1], "streams") == 0 ? 4 : 3]);
    if (strcmp(words[1], "streams") == 0)
        take_streams(take_stream, count - 5, words + 5);
    else if (strcmp(words[1], "follow") == 0)
        take_streams(follow_stream, count - 4, words + 4);
    else
        time_commits(atoi(words[3]), words[4], words[5], words[count - 1]);
    return 0;
}
