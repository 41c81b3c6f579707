"""What a server copies of publications' tables, asked as PostgreSQL's own subscribers of release 15 ask."""
from catalogue import quoted, text_of

SLOT = "copy"
BEGIN = "BEGIN READ ONLY ISOLATION LEVEL REPEATABLE READ"
CREATE = f"CREATE_REPLICATION_SLOT \"{SLOT}\" LOGICAL pgoutput (SNAPSHOT 'use')"
TABLES = "SELECT DISTINCT t.schemaname, t.tablename \n, t.attnames\nFROM pg_catalog.pg_publication_tables t\n WHERE t.pubname IN ({})"
TABLE = (
    "SELECT c.oid, c.relreplident, c.relkind  FROM pg_catalog.pg_class c  INNER JOIN pg_catalog.pg_namespace n"
    "        ON (c.relnamespace = n.oid) WHERE n.nspname = {}   AND c.relname = {}"
)
LISTS = (
    "SELECT DISTINCT  (CASE WHEN (array_length(gpt.attrs, 1) = c.relnatts)   THEN NULL ELSE gpt.attrs END)  FROM pg_publication p,"
    "  LATERAL pg_get_publication_tables(p.pubname) gpt,  pg_class c WHERE gpt.relid = {} AND c.oid = gpt.relid   AND p.pubname IN ( {} )"
)
COLUMNS = (
    "SELECT a.attnum,       a.attname,       a.atttypid,       a.attnum = ANY(i.indkey)  FROM pg_catalog.pg_attribute a"
    "  LEFT JOIN pg_catalog.pg_index i       ON (i.indexrelid = pg_get_replica_identity_index({0}))"
    " WHERE a.attnum > 0::pg_catalog.int2   AND NOT a.attisdropped AND a.attgenerated = ''   AND a.attrelid = {0} ORDER BY a.attnum"
)
FILTERS = (
    "SELECT DISTINCT pg_get_expr(gpt.qual, gpt.relid)  FROM pg_publication p,  LATERAL pg_get_publication_tables(p.pubname) gpt"
    " WHERE gpt.relid = {}   AND p.pubname IN ( {} )"
)


def copied(session, publications):
    """Of each published table: its identity, its columns, whether it has filters, and the bytes of its rows, sorted, since a server
    may copy rows in any order."""
    names, found = ", ".join(map(text_of, publications)), {}
    tables = session.ask(TABLES.format(names))[0]
    session.ask(BEGIN)
    session.ask(CREATE)
    for schema, name, _ in tables:
        found[schema, name] = table_copied(session, schema, name, names)
    session.ask("COMMIT")
    session.ask(f"DROP_REPLICATION_SLOT {SLOT} WAIT")
    return found


def table_copied(session, schema, name, publications):
    ((oid, identity, kind),) = session.ask(TABLE.format(text_of(schema), text_of(name)))[0]
    ((listed,),) = session.ask(LISTS.format(oid, publications))[0]
    columns = [row for row in session.ask(COLUMNS.format(oid))[0] if listed is None or row[0] in listed.split()]
    filters = [row[0] for row in session.ask(FILTERS.format(oid, publications))[0]]
    filters = [] if None in filters else filters
    rows = rows_copied(session, f"{quoted(schema)}.{quoted(name)}", ", ".join(quoted(row[1]) for row in columns), filters)
    return identity, kind, columns, bool(filters), rows


def rows_copied(session, table, columns, filters):
    """Line by line. The tag has to count them."""
    source = f"(SELECT {columns} FROM ONLY {table} WHERE {' OR '.join(filters)})" if filters else f"{table} ({columns})"
    session.send(b"Q", f"COPY {source} TO STDOUT".encode() + b"\0")
    frames = session.answers(b"Z")
    rows = b"".join(body for kind, body in frames if kind == b"d").splitlines(True)
    tags = [body for kind, body in frames if kind == b"C"]
    return sorted(rows), tags
