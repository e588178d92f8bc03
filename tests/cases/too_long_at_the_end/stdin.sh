head -c 4097 /dev/zero | tr '\0' x
