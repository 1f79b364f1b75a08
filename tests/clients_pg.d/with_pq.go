// lib/pq: `sslmode=disable`, and nothing else to say. Values are bound as texts, integers come in binary.
package main

import (
	"database/sql"
	"fmt"
	"os"
	"strings"

	"github.com/lib/pq"
)

var port, user, odd = os.Args[1], os.Args[2], os.Args[3]
var table = "t_" + user

func said(step string, fields ...interface{}) {
	line := step
	for _, field := range fields {
		line += fmt.Sprintf("\t%v", field)
	}
	fmt.Println(line)
}

func opened(user, password string) *sql.DB {
	words := "host=127.0.0.1 port=%s user=%s password=%s dbname=x sslmode=disable"
	db, err := sql.Open("postgres", fmt.Sprintf(words, port, user, password))
	if err != nil {
		panic(err)
	}
	db.SetMaxOpenConns(2)
	return db
}

func code(err error) string {
	if why, is := err.(*pq.Error); is {
		return string(why.Code)
	}
	return fmt.Sprint("no SQLSTATE: ", err)
}

type asker interface {
	Query(string, ...interface{}) (*sql.Rows, error)
	Exec(string, ...interface{}) (sql.Result, error)
}

// All values of all rows, or the SQLSTATE.
func rows(on asker, statement string, values ...interface{}) []interface{} {
	set, err := on.Query(statement, values...)
	if err != nil {
		return []interface{}{code(err)}
	}
	defer set.Close()
	columns, _ := set.Columns()
	all := []interface{}{}
	for set.Next() {
		row, places := make([]sql.NullString, len(columns)), make([]interface{}, len(columns))
		for n := range row {
			places[n] = &row[n]
		}
		if err := set.Scan(places...); err != nil {
			return []interface{}{err}
		}
		for _, value := range row {
			if value.Valid {
				all = append(all, value.String)
			} else {
				all = append(all, "None")
			}
		}
	}
	if set.Err() != nil {
		return []interface{}{code(set.Err())}
	}
	return all
}

func changed(on asker, statement string, values ...interface{}) interface{} {
	told, err := on.Exec(statement, values...)
	if err != nil {
		return code(err)
	}
	count, err := told.RowsAffected()
	if err != nil {
		return err
	}
	return count
}

func main() {
	own := opened(user, "pw-of-"+user)
	insert := "INSERT INTO " + table + " VALUES ($1, $2)"
	wage := "SELECT wage FROM " + table + " WHERE name = $1"
	said("version", rows(own, "SHOW server_version")...)
	said("create", changed(own, "CREATE TABLE "+table+" (name TEXT, wage INTEGER)"))
	said("insert", changed(own, insert, "Bo", 7))
	said("insert odd", changed(own, insert, odd, int64(-1<<63)))
	said("insert max", changed(own, insert, "max", int64(1<<63-1)))
	said("update", changed(own, "UPDATE "+table+" SET wage = $1 WHERE name = $2", 8, "Bo"))
	prepared, err := own.Prepare(insert)
	counts := []interface{}{}
	for n := 0; err == nil && n < 3; n++ {
		told, _ := prepared.Exec(fmt.Sprintf("m%d", n), n)
		count, _ := told.RowsAffected()
		counts = append(counts, count)
	}
	said("several", counts...)
	prepared.Close()
	said("delete", changed(own, "DELETE FROM "+table+" WHERE name = $1", "m1"))
	set, err := own.Query("SELECT * FROM " + table)
	if err != nil {
		panic(err)
	}
	types, _ := set.ColumnTypes()
	set.Close()
	said("columns", types[0].Name(), types[0].DatabaseTypeName(), types[1].Name(), types[1].DatabaseTypeName())
	said("rows", rows(own, "SELECT * FROM "+table)...)
	said("filter", rows(own, "SELECT name FROM "+table+" WHERE wage > $1", 0)...)
	ten := []interface{}{}
	for n := 0; n < 10; n++ {
		ten = append(ten, rows(own, wage, "max")...)
	}
	said("ten times", ten...)
	many, sum := rows(own, "SELECT x FROM thousands"), int64(0)
	for _, text := range many {
		x := int64(0)
		fmt.Sscan(text.(string), &x)
		sum += x
	}
	said("thousands", len(many), sum)
	for _, line := range strings.Split(strings.TrimSpace(os.Getenv("REFUSED")), "\n") {
		asked := strings.Split(line, "\t")
		said(asked[0], changed(own, asked[1]))
	}
	said("null", changed(own, insert, nil, 1))
	said("line feed", changed(own, insert, "a\nb", 1))
	said("no number", changed(own, insert, "x", "seven"))
	said("goes on", rows(own, wage, "Bo")...)
	block, err := own.Begin()
	if err != nil {
		panic(err)
	}
	said("in a block", changed(block, insert, "in a block", 1), rows(block, "SELECT * FROM few")[0])
	block.Rollback()
	block, err = own.Begin()
	if err != nil {
		panic(err)
	}
	said("a block of queries", rows(block, "SELECT * FROM few")...)
	block.Commit()
	said("ping", own.Ping())
	said("grant", changed(own, "GRANT SELECT ON "+table+" TO reader"))
	there := opened("reader", "pw-of-reader")
	said("two users", rows(own, wage, "Bo")[0], rows(there, wage, "Bo")[0], changed(there, "DELETE FROM "+table))
	said("revoke", changed(own, "REVOKE SELECT ON "+table+" FROM reader"))
	said("export", rows(own, "EXPORT 1")...)
	said("checkpoints", rows(own, "CHECKPOINTS")...)
	said("wrong password", code(opened(user, "wrong").Ping()))
}
