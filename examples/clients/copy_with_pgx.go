// Copies a table by pgx, and goes on with its changes: copy_with_pgx HOST PORT COUNT
//
// The slot is made in a transaction, whose snapshot the copy reads: exactly what commits before the slot's point. The stream has the
// rest. A line tells each row of the copy, and each message of an insert; so it goes on until COUNT rows are told in all.
package main

import (
	"bufio"
	"bytes"
	"context"
	"encoding/hex"
	"fmt"
	"os"
	"strconv"

	"github.com/jackc/pgconn"
	"github.com/jackc/pgproto3/v2"
	"github.com/jackc/pgx/v4"
)

const (
	begin  = "BEGIN READ ONLY ISOLATION LEVEL REPEATABLE READ"
	create = "CREATE_REPLICATION_SLOT \"copied\" LOGICAL pgoutput (SNAPSHOT 'use')"
	copied = "COPY public.item (id, name, qty) TO STDOUT"
	start  = "START_REPLICATION SLOT \"copied\" LOGICAL %s (proto_version '1', publication_names 'p')"
)

var always = context.Background()

func check(err error) {
	if err != nil {
		fmt.Fprintln(os.Stderr, err)
		os.Exit(1)
	}
}

func ask(connection *pgconn.PgConn, command string) []*pgconn.Result {
	results, err := connection.Exec(always, command).ReadAll()
	check(err)
	return results
}

func receive(connection *pgconn.PgConn) pgproto3.BackendMessage {
	message, err := connection.ReceiveMessage(always)
	check(err)
	if refused, is := message.(*pgproto3.ErrorResponse); is {
		check(pgconn.ErrorResponseToPgError(refused))
	}
	return message
}

// The message in the next XLogData.
func message(connection *pgconn.PgConn) []byte {
	for {
		data, is := receive(connection).(*pgproto3.CopyData)
		if is && data.Data[0] == 'w' {
			return data.Data[25:]
		}
	}
}

func main() {
	count, err := strconv.Atoi(os.Args[3])
	check(err)
	client, err := pgx.Connect(always, fmt.Sprintf("host=%s port=%s user=u dbname=app replication=database sslmode=disable", os.Args[1], os.Args[2]))
	check(err)
	connection := client.PgConn()
	ask(connection, begin)
	point := string(ask(connection, create)[0].Rows[0][1])
	var rows bytes.Buffer
	_, err = connection.CopyTo(always, &rows, copied)
	check(err)
	ask(connection, "COMMIT")
	told := 0
	for lines := bufio.NewScanner(&rows); lines.Scan(); told++ {
		fmt.Println("row", lines.Text())
	}
	check(connection.SendBytes(always, (&pgproto3.Query{String: fmt.Sprintf(start, point)}).Encode(nil)))
	receive(connection)
	for told < count {
		if body := message(connection); body[0] == 'I' {
			fmt.Println("insert", hex.EncodeToString(body))
			told++
		}
	}
	check(client.Close(always))
}
