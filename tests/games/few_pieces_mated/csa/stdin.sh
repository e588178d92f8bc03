# Prints the line of the record.
cat "${0%/*}/../usi/stdout"
