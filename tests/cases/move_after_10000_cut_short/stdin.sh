# Two rooks go round on their own files, black's in 18 steps and white's in 17, and black's pawn is pushed before a
# position stands for the fourth time.
awk 'BEGIN {
    b = w = 0
    for (i = 1; i <= 9; i++) { black[i - 1] = 10 + i; black[18 - i] = 20 + i }
    for (i = 1; i <= 9; i++) white[i - 1] = 40 + i
    white[9] = 59
    for (i = 7; i >= 1; i--) white[17 - i] = 50 + i
    pawn = 98
    printf "P+11HI98FU\nP-41HI\n+\n"
    for (n = 1; n <= 5000; n++) {
        if (n % 750 == 0) { printf "+%d%dFU\n", pawn, pawn - 1; pawn-- }
        else { printf "+%d%dHI\n", black[b], black[(b + 1) % 18]; b = (b + 1) % 18 }
        printf "-%d%dHI\n", white[w], white[(w + 1) % 17]; w = (w + 1) % 17
    }
    printf "+%d%dH", black[b], black[(b + 1) % 18]
}'
