seq 100000 | sed "s/^/'PI,/"; printf 'PI\n+\n'
