printf 'position startpos\n'; printf 'position startpos'; head -c 65519 /dev/zero | tr '\0' ' '; printf '\n'
