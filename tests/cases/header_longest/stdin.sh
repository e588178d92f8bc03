printf '$A:'; head -c 4093 /dev/zero | tr '\0' a; printf '\n+\n'
