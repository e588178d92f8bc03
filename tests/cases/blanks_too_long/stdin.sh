printf 'PI'; head -c 4095 /dev/zero | tr '\0' ' '; printf '\n+\n'
