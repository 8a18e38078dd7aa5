"""Keeps a table in a database of the current folder, by a journal that is deleted at each commit, and prints what it holds."""
import os
import sqlite3


def main():
    """Makes the table, fills it, takes a part back, and reads it again."""
    with sqlite3.connect("rows.db") as database:
        database.execute("create table rows (number integer primary key, word text)")
        database.executemany("insert into rows values (?, ?)", ((number, "word" * number) for number in range(100)))
    with sqlite3.connect("rows.db") as database:
        database.execute("delete from rows where number % 3 = 0")
    try:
        with sqlite3.connect("rows.db") as database:
            database.execute("delete from rows")
            raise InterruptedError
    except InterruptedError:
        pass
    database = sqlite3.connect("rows.db")
    print(database.execute("pragma integrity_check").fetchall())
    print(database.execute("select count(*), sum(length(word)) from rows").fetchall())
    database.close()
    print(sorted(name for name in os.listdir() if name.startswith("rows")))
    os.unlink("rows.db")


if __name__ == "__main__":
    main()
