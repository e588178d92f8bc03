printf "'"; head -c 100000000 /dev/zero; printf '\nPI\n+\n'
