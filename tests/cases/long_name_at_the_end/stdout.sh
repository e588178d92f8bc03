printf 'V2.2\nN+'; head -c 4094 /dev/zero | tr '\0' a; printf '\nPI\n+\n'
