// Follows one transaction by pgx: with_pgx HOST PORT
//
// pgx has no calls for replication; commands and stream go over the connection below it, as pglogrepl does it.
package main

import (
	"context"
	"encoding/binary"
	"encoding/hex"
	"fmt"
	"os"

	"github.com/jackc/pgconn"
	"github.com/jackc/pgproto3/v2"
	"github.com/jackc/pgx/v4"
)

const start = "START_REPLICATION SLOT s LOGICAL 0/0 (proto_version '1', publication_names 'p', messages 'true')"

var always = context.Background()

func check(err error) {
	if err != nil {
		fmt.Fprintln(os.Stderr, err)
		os.Exit(1)
	}
}

func position(bytes []byte) string {
	return fmt.Sprintf("%X/%X", binary.BigEndian.Uint32(bytes), binary.BigEndian.Uint32(bytes[4:]))
}

// Sends a command, and prints its row, if there is one, after the word.
func ask(connection *pgconn.PgConn, command string, word string) {
	results, err := connection.Exec(always, command).ReadAll()
	check(err)
	fmt.Print(word)
	for _, row := range results[0].Rows {
		for _, cell := range row {
			if cell == nil {
				cell = []byte("null")
			}
			fmt.Printf(" %s", cell)
		}
	}
	fmt.Println()
}

func receive(connection *pgconn.PgConn) pgproto3.BackendMessage {
	message, err := connection.ReceiveMessage(always)
	check(err)
	if refused, is := message.(*pgproto3.ErrorResponse); is {
		check(pgconn.ErrorResponseToPgError(refused))
	}
	return message
}

// Prints what came in a CopyData, and answers its kind: a logical message's own, or k.
func take(connection *pgconn.PgConn) byte {
	copied, is := receive(connection).(*pgproto3.CopyData)
	if !is {
		check(fmt.Errorf("the stream ended early"))
	}
	body := copied.Data
	if body[0] == 'k' {
		fmt.Println("keepalive", position(body[1:]))
		return 'k'
	}
	clock := int64(binary.BigEndian.Uint64(body[17:]))
	fmt.Println("message", position(body[1:]), position(body[9:]), clock, hex.EncodeToString(body[25:]))
	return body[25]
}

// A status that has written, flushed and applied everything below the position, and asks for an answer.
func sendStatus(connection *pgconn.PgConn, position uint64) {
	status := make([]byte, 34)
	status[0] = 'r'
	for field := 0; field < 3; field++ {
		binary.BigEndian.PutUint64(status[1+8*field:], position)
	}
	status[33] = 1
	check(connection.SendBytes(always, (&pgproto3.CopyData{Data: status}).Encode(nil)))
}

// Says that it wants no more, passes over what was under way, and takes the answer.
func endStream(connection *pgconn.PgConn) {
	check(connection.SendBytes(always, (&pgproto3.CopyDone{}).Encode(nil)))
	for {
		if _, is := receive(connection).(*pgproto3.ReadyForQuery); is {
			break
		}
	}
	fmt.Println("ended")
}

func main() {
	where := fmt.Sprintf("host=%s port=%s user=u dbname=app replication=database", os.Args[1], os.Args[2])
	client, err := pgx.Connect(always, where)
	check(err)
	connection := client.PgConn()
	ask(connection, "IDENTIFY_SYSTEM", "system")
	ask(connection, "CREATE_REPLICATION_SLOT s LOGICAL pgoutput", "slot")
	check(connection.SendBytes(always, (&pgproto3.Query{String: start}).Encode(nil)))
	if _, is := receive(connection).(*pgproto3.CopyBothResponse); !is {
		check(fmt.Errorf("no stream began"))
	}
	fmt.Println("started")
	for take(connection) != 'C' {
	}
	sendStatus(connection, 0x1001878)
	for take(connection) != 'k' {
	}
	endStream(connection)
	ask(connection, "DROP_REPLICATION_SLOT s", "dropped")
	check(client.Close(always))
}
