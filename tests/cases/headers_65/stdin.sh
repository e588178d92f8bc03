seq 10 74 | sed 's/.*/$K&:x/'; printf '+\n'
