printf 'PI'; head -c 4094 /dev/zero | tr '\0' ' '; printf '\n+\n'
