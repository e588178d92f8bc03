seq 10 73 | sed 's/.*/$K&:x/'; printf '$EVENT:\n+\n'
