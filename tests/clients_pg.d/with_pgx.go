// pgx: nothing to say. Statements are prepared under names, integers are binary both ways.
package main

import (
	"context"
	"errors"
	"fmt"
	"os"
	"strings"

	"github.com/jackc/pgconn"
	"github.com/jackc/pgx/v4"
)

var port, user, odd = os.Args[1], os.Args[2], os.Args[3]
var table = "t_" + user
var ctx = context.Background()

func said(step string, fields ...interface{}) {
	line := step
	for _, field := range fields {
		line += fmt.Sprintf("\t%v", field)
	}
	fmt.Println(line)
}

func connected(user, password string) (*pgx.Conn, error) {
	words := "host=127.0.0.1 port=%s user=%s password=%s dbname=x"
	return pgx.Connect(ctx, fmt.Sprintf(words, port, user, password))
}

func code(err error) string {
	var why *pgconn.PgError
	if errors.As(err, &why) {
		return why.Code
	}
	return fmt.Sprint("no SQLSTATE: ", err)
}

// All values of all rows, or the SQLSTATE.
func rows(on *pgx.Conn, statement string, values ...interface{}) []interface{} {
	set, err := on.Query(ctx, statement, values...)
	if err != nil {
		return []interface{}{code(err)}
	}
	defer set.Close()
	all := []interface{}{}
	for set.Next() {
		row, err := set.Values()
		if err != nil {
			return []interface{}{err}
		}
		for _, value := range row {
			if value == nil {
				value = "None"
			}
			all = append(all, value)
		}
	}
	if set.Err() != nil {
		return []interface{}{code(set.Err())}
	}
	return all
}

func changed(on *pgx.Conn, statement string, values ...interface{}) interface{} {
	tag, err := on.Exec(ctx, statement, values...)
	if err != nil {
		return code(err)
	}
	return tag
}

func batch(on *pgx.Conn, insert string) []interface{} {
	several, tags := &pgx.Batch{}, []interface{}{}
	for n := 0; n < 3; n++ {
		several.Queue(insert, fmt.Sprintf("m%d", n), n)
	}
	told := on.SendBatch(ctx, several)
	defer told.Close()
	for n := 0; n < 3; n++ {
		tag, err := told.Exec()
		if err != nil {
			return append(tags, code(err))
		}
		tags = append(tags, tag)
	}
	return tags
}

// Their count and sum.
func counted(many []interface{}) []interface{} {
	sum := int64(0)
	for _, x := range many {
		number, _ := x.(int64)
		sum += number
	}
	return []interface{}{len(many), sum}
}

// What 300 statements give, each of which is sent twice: it keeps 512 of them.
func manyStatements(on *pgx.Conn) []interface{} {
	all := []interface{}{}
	for n := 100; n < 400; n++ {
		for x := 1; x <= 2; x++ {
			all = append(all, rows(on, fmt.Sprint("SELECT x FROM few WHERE x = $1 AND x <> ", n), x)...)
		}
	}
	return counted(all)
}

func main() {
	own, err := connected(user, "pw-of-"+user)
	if err != nil {
		panic(err)
	}
	insert := "INSERT INTO " + table + " VALUES ($1, $2)"
	wage := "SELECT wage FROM " + table + " WHERE name = $1"
	said("version", rows(own, "SHOW server_version")...)
	said("create", changed(own, "CREATE TABLE "+table+" (name TEXT, wage INTEGER)"))
	said("insert", changed(own, insert, "Bo", 7))
	said("insert odd", changed(own, insert, odd, int64(-1<<63)))
	said("insert max", changed(own, insert, "max", int64(1<<63-1)))
	said("update", changed(own, "UPDATE "+table+" SET wage = $1 WHERE name = $2", 8, "Bo"))
	said("several", batch(own, insert)...)
	said("delete", changed(own, "DELETE FROM "+table+" WHERE name = $1", "m1"))
	set, err := own.Query(ctx, "SELECT * FROM "+table)
	if err != nil {
		panic(err)
	}
	columns := []interface{}{}
	for _, field := range set.FieldDescriptions() {
		columns = append(columns, string(field.Name), field.DataTypeOID)
	}
	set.Close()
	said("columns", columns...)
	said("rows", rows(own, "SELECT * FROM "+table)...)
	said("filter", rows(own, "SELECT name FROM "+table+" WHERE wage > $1", 0)...)
	ten := []interface{}{}
	for n := 0; n < 10; n++ {
		ten = append(ten, rows(own, wage, "max")...)
	}
	said("ten times", ten...)
	said("thousands", counted(rows(own, "SELECT x FROM thousands"))...)
	for _, line := range strings.Split(strings.TrimSpace(os.Getenv("REFUSED")), "\n") {
		asked := strings.Split(line, "\t")
		said(asked[0], changed(own, asked[1]))
	}
	said("null", changed(own, insert, nil, 1))
	said("line feed", changed(own, insert, "a\nb", 1))
	said("goes on", rows(own, wage, "Bo")...)
	own.Exec(ctx, "BEGIN")
	said("in a block", changed(own, insert, "in a block", 1), rows(own, "SELECT * FROM few")[0])
	own.Exec(ctx, "ROLLBACK")
	block, err := own.Begin(ctx)
	if err != nil {
		panic(err)
	}
	said("a block of queries", rows(block.Conn(), "SELECT * FROM few")...)
	block.Commit(ctx)
	said("ping", own.Ping(ctx))
	said("grant", changed(own, "GRANT SELECT ON "+table+" TO reader"))
	there, err := connected("reader", "pw-of-reader")
	if err != nil {
		panic(err)
	}
	said("two users", rows(own, wage, "Bo")[0], rows(there, wage, "Bo")[0], changed(there, "DELETE FROM "+table))
	said("revoke", changed(own, "REVOKE SELECT ON "+table+" FROM reader"))
	said("moment", own.PgConn().ParameterStatus("sysr.moment"))
	said("export", rows(own, "EXPORT 1")...)
	said("checkpoints", rows(own, "CHECKPOINTS")...)
	said("many statements", manyStatements(own)...)
	_, err = connected(user, "wrong")
	said("wrong password", code(err))
}
