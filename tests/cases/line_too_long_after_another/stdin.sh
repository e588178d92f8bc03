printf 'position startpos\n'; printf 'position startpos'; head -c 65520 /dev/zero | tr '\0' ' '; printf '\n'
