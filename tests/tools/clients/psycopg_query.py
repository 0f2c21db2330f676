"""A query by psycopg2 or psycopg, with the time limit of a connect alone."""
import importlib
import sys

name, host, port = sys.argv[1:]
connection = importlib.import_module(name).connect(host=host, port=port, user="postgres", connect_timeout=2)
with connection.cursor() as cursor:
    cursor.execute("SELECT 7")
    print(cursor.fetchone()[0])
