printf 'V2.2\n$A:'; head -c 4093 /dev/zero | tr '\0' a; printf '\nPI\n+\n'
