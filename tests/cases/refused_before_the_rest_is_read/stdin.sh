printf 'PI\n+\n+7776KI\n'; head -c 100000000 /dev/zero
