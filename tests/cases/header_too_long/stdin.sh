printf '$A:'; head -c 4094 /dev/zero | tr '\0' a; printf '\n+\n'
