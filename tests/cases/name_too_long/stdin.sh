printf 'N+'; head -c 4095 /dev/zero | tr '\0' a; printf '\n+\n'
