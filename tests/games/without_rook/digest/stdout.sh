# What sha256sum prints of the canonical text.
sha256sum <"${0%/*}/../normal/stdout"
