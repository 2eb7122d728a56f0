"""Lists all errors of the GraphQL files below a folder, one in a line. The status is 1 if there are any."""
import pathlib
import sys

import graphql_proved

count = 0
for file in sorted(pathlib.Path(sys.argv[1]).rglob("*.graphql")):
    for error in graphql_proved.check(file.read_bytes()):
        print(f"{file}:{error}")
        count += 1
sys.exit(1 if count else 0)
