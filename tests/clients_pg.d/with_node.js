// node-pg: nothing to say. Values are bound as texts; integers of eight bytes come as texts.
const {Client, Pool} = require("pg");
const Cursor = require("pg-cursor");
const [port, user, odd] = process.argv.slice(2);
const table = `t_${user}`;

const words = (user, password) => ({host: "127.0.0.1", port: +port, user, password: password || `pw-of-${user}`,
  database: "x"});
const said = (step, ...fields) => console.log([step, ...fields].join("\t"));
const rows = async (on, ...asked) => (await on.query(...asked)).rows.flatMap(
  row => Object.values(row).map(value => value === null ? "None" : value));
const code = async work => {
  try { return `nothing raised, ${JSON.stringify(await work())}`; } catch (why) { return why.code || why.message; }
};

(async () => {
  const own = new Client(words(user)), statuses = {};
  await own.connect();
  own.connection.on("parameterStatus", told => { statuses[told.parameterName] = told.parameterValue; });
  const change = async (step, ...asked) => {
    const told = await own.query(...asked);
    said(step, told.command, told.rowCount);
  };
  const insert = `INSERT INTO ${table} VALUES ($1, $2)`, wage = `SELECT wage FROM ${table} WHERE name = $1`;
  said("version", ...await rows(own, "SHOW server_version"));
  await change("create", `CREATE TABLE ${table} (name TEXT, wage INTEGER)`);
  await change("insert", insert, ["Bo", 7]);
  await change("insert odd", insert, [odd, -(2n ** 63n)]);
  await change("insert max", insert, ["max", 2n ** 63n - 1n]);
  await change("update", `UPDATE ${table} SET wage = $1 WHERE name = $2`, [8, "Bo"]);
  // (sent one behind the other, without waiting)
  const told = await Promise.all([0, 1, 2].map(n => own.query(insert, [`m${n}`, n])));
  said("several", ...told.map(each => each.rowCount));
  await change("delete", `DELETE FROM ${table} WHERE name = $1`, ["m1"]);
  const all = await own.query(`SELECT * FROM ${table}`);
  said("columns", ...all.fields.flatMap(field => [field.name, field.dataTypeID]));
  said("rows", ...await rows(own, `SELECT * FROM ${table}`));
  said("filter", ...await rows(own, `SELECT name FROM ${table} WHERE wage > $1`, [0]));
  const ten = [];
  for (let n = 0; n < 10; n++) ten.push(...await rows(own, {name: "wage", text: wage, values: ["max"]}));
  said("ten times", ...ten);
  const many = await rows(own, "SELECT x FROM thousands");
  said("thousands", many.length, many.reduce((sum, x) => sum + Number(x), 0));
  const cursor = own.query(new Cursor("SELECT x FROM thousands WHERE x >= $1", [0])), parts = [];
  for (let part; (part = await cursor.read(999)).length;) parts.push(...part);
  await cursor.close();
  said("in parts", parts.length, parts.reduce((sum, row) => sum + Number(row.x), 0));
  for (const line of process.env.REFUSED.trim().split("\n")) {
    const [step, statement] = line.split("\t");
    said(step, await code(() => own.query(statement)));
  }
  said("null", await code(() => own.query(insert, [null, 1])));
  said("line feed", await code(() => own.query(insert, ["a\nb", 1])));
  said("no number", await code(() => own.query(insert, ["x", "seven"])));
  said("goes on", ...await rows(own, wage, ["Bo"]));
  await own.query("BEGIN");
  said("in a block", await code(() => own.query(insert, ["in a block", 1])),
    await code(() => own.query("SELECT * FROM few")));
  await own.query("ROLLBACK");
  await own.query("BEGIN");
  said("a block of queries", ...await rows(own, "SELECT * FROM few"));
  await own.query("COMMIT");
  await change("grant", `GRANT SELECT ON ${table} TO reader`);
  const here = new Pool({...words(user), max: 2}), there = new Pool({...words("reader"), max: 2});
  said("two users", ...await rows(here, wage, ["Bo"]), ...await rows(there, wage, ["Bo"]),
    await code(() => there.query(`DELETE FROM ${table}`)));
  await Promise.all([here.end(), there.end()]);
  await change("revoke", `REVOKE SELECT ON ${table} FROM reader`);
  said("moment", statuses["sysr.moment"]);
  said("export", ...await rows(own, "EXPORT 1"));
  said("checkpoints", ...await rows(own, "CHECKPOINTS"));
  said("wrong password", await code(() => new Client(words(user, "wrong")).connect()));
  await own.end();
})();
