printf 'isready\n'; head -c 65537 /dev/zero | tr '\0' ' '
