"""A query by PyMySQL, with the time limit of a connect alone."""
import sys

import pymysql

host, port = sys.argv[1:]
connection = pymysql.connect(host=host, port=int(port), user="root", connect_timeout=1)
with connection.cursor() as cursor:
    cursor.execute("SELECT 7")
    print(cursor.fetchone()[0])
