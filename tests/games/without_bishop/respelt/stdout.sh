# The same as of the record.
cat "${0%/*}/../normal/stdout"
