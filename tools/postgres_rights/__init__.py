"""What tools/to_postgres and tools/from_postgres are made of.

    wording   names and texts of SQL, and what is told of them
    server    psql, and what is asked of PostgreSQL's catalog
    program   the program sysr
    journal   what a journal leaves
    exports   rows of an export in place of the journal's
    carrying  names there, and which grants are made there
    script    the script for psql
    checking  who holds what here and there
    schema    the tables and entries of a schema of PostgreSQL
    order     in which order its entries may be granted here
    saying    the script of grants for sysr

An entry is what PostgreSQL keeps of grants: one for each grantor, grantee and right, with the option or without. A
right is written as `sysr explain` writes it: INSERT, DELETE, SELECT(x), UPDATE(x).
"""
