"""A filter: reads a document from standard input, and writes it formatted to standard output."""
import sys

import graphql_proved

try:
    output = graphql_proved.format(sys.stdin.buffer.read())
except graphql_proved.DocumentError as error:
    sys.exit(str(error))
sys.stdout.buffer.write(output)
