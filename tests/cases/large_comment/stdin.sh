printf "'"; head -c 19999999 /dev/zero | tr '\0' ,; printf '\nPI\n+\n'
