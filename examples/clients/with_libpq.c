/* Follows one transaction by libpq: with_libpq HOST PORT */
#include <inttypes.h>
#include <libpq-fe.h>
#include <stdio.h>
#include <stdlib.h>
#include <string.h>

static void fail(PGconn *connection, const char *what)
{
    fprintf(stderr, "%s: %s", what, PQerrorMessage(connection));
    exit(1);
}

static void print_position(uint64_t position)
{
    printf(" %" PRIX32 "/%" PRIX32, (uint32_t)(position >> 32), (uint32_t)position);
}

static uint64_t get_int64(const unsigned char *bytes)
{
    uint64_t value = 0;
    for (int i = 0; i < 8; i++)
        value = value << 8 | bytes[i];
    return value;
}

static void put_int64(char *bytes, uint64_t value)
{
    for (int i = 0; i < 8; i++)
        bytes[i] = (char)(value >> (56 - 8 * i));
}

/* Sends a command, and prints its row, if there is one, after the word. */
static void ask(PGconn *connection, const char *command, ExecStatusType due, const char *word)
{
    PGresult *result = PQexec(connection, command);
    if (PQresultStatus(result) != due)
        fail(connection, command);
    printf("%s", word);
    for (int i = 0; PQntuples(result) == 1 && i < PQnfields(result); i++)
        printf(" %s", PQgetisnull(result, 0, i) ? "null" : PQgetvalue(result, 0, i));
    printf("\n");
    fflush(stdout);
    PQclear(result);
}

/* Prints what came in a CopyData, and answers the kind of what came: a logical message's own, or 'k'. */
static char take(PGconn *connection)
{
    char *data = NULL;
    int length = PQgetCopyData(connection, &data, 0);
    const unsigned char *body = (const unsigned char *)data;
    if (length < 18)
        fail(connection, "PQgetCopyData");
    char kind = data[0] == 'w' ? data[25] : data[0];
    printf(data[0] == 'w' ? "message" : "keepalive");
    print_position(get_int64(body + 1));
    if (data[0] == 'w') {
        print_position(get_int64(body + 9));
        printf(" %" PRId64 " ", (int64_t)get_int64(body + 17));
        for (int i = 25; i < length; i++)
            printf("%02x", body[i]);
    }
    printf("\n");
    PQfreemem(data);
    return kind;
}

/* A status that has written, flushed and applied everything below the position, and asks for an answer. */
static void send_status(PGconn *connection, uint64_t position)
{
    char status[34] = "r";
    for (int field = 0; field < 3; field++)
        put_int64(status + 1 + 8 * field, position);
    status[33] = 1;
    if (PQputCopyData(connection, status, sizeof status) != 1 || PQflush(connection) != 0)
        fail(connection, "status");
}

/* Says that it wants no more, passes over what was under way, and takes the answer. */
static void end_stream(PGconn *connection)
{
    char *data = NULL;
    int length;
    if (PQputCopyEnd(connection, NULL) != 1)
        fail(connection, "PQputCopyEnd");
    while ((length = PQgetCopyData(connection, &data, 0)) > 0)
        PQfreemem(data);
    if (length != -1)
        fail(connection, "PQgetCopyData");
    PGresult *result;
    while ((result = PQgetResult(connection)) != NULL) {
        if (PQresultStatus(result) != PGRES_COMMAND_OK)
            fail(connection, "end");
        PQclear(result);
    }
    printf("ended\n");
}

int main(int argc, char **argv)
{
    char where[200];
    if (argc != 3)
        return 2;
    snprintf(where, sizeof where, "host=%s port=%s user=u dbname=app replication=database", argv[1], argv[2]);
    PGconn *connection = PQconnectdb(where);
    if (PQstatus(connection) != CONNECTION_OK)
        fail(connection, "connect");
    ask(connection, "IDENTIFY_SYSTEM", PGRES_TUPLES_OK, "system");
    ask(connection, "CREATE_REPLICATION_SLOT s LOGICAL pgoutput", PGRES_TUPLES_OK, "slot");
    ask(connection, "START_REPLICATION SLOT s LOGICAL 0/0 (proto_version '1', publication_names 'p')", PGRES_COPY_BOTH,
        "started");
    while (take(connection) != 'C')
        continue;
    send_status(connection, 0x1001878);
    while (take(connection) != 'k')
        continue;
    end_stream(connection);
    ask(connection, "DROP_REPLICATION_SLOT s", PGRES_COMMAND_OK, "dropped");
    PQfinish(connection);
    return 0;
}
