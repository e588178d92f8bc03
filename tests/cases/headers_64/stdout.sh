printf 'V2.2\n'; seq 10 73 | sed 's/.*/$K&:x/'; printf 'PI\n+\n'
