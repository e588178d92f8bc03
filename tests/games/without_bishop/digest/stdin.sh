# Prints the game's record.
cat "${0%/*}/../record.csa"
